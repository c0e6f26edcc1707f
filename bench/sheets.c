/* Does the job of the proved program `sheets` in plain C: reads tapes from standard input, each after its length as a
 * u32, and writes the sheet of each, followed by a line with a single dot. With the word `untested` on the command line
 * no step tests first whether the state is valid. */
#include <stdio.h>
#include <string.h>

#include "monitor.h"

enum { MOST_MANIFESTS = 32, LONGEST_MANIFEST = 1024, MOST_ACTIONS = 2048, RECORD = 12, LONGEST_SHEET = 49250 };

struct tape {
    struct bytes manifests[MOST_MANIFESTS];
    size_t manifest_count;
    const uint8_t *actions;
    size_t action_count;
};

/* A sheet as far as it is written. */
struct sheet {
    char text[LONGEST_SHEET + 2];
    size_t length;
};

static unsigned u16(const uint8_t *at)
{
    return at[0] | (unsigned)at[1] << 8;
}

/* Answers 0 where the bytes are no tape. */
static int read_tape(const uint8_t *at, size_t left, struct tape *tape)
{
    if (left < 1 || *at > MOST_MANIFESTS)
        return 0;
    tape->manifest_count = *at++;
    left--;
    for (size_t i = 0; i < tape->manifest_count; i++) {
        if (left < 2 || u16(at) > LONGEST_MANIFEST || left - 2 < u16(at))
            return 0;
        tape->manifests[i] = (struct bytes){at + 2, u16(at)};
        left -= 2 + u16(at);
        at += 2 + u16(at);
    }
    if (left < 2 || u16(at) > MOST_ACTIONS || left - 2 != RECORD * (size_t)u16(at))
        return 0;
    tape->action_count = u16(at);
    tape->actions = at + 2;
    return 1;
}

static void put(struct sheet *sheet, const char *text)
{
    size_t length = strlen(text);

    memcpy(sheet->text + sheet->length, text, length);
    sheet->length += length;
}

static void put_number(struct sheet *sheet, uint32_t number, char after)
{
    char digits[10];
    size_t count = 0;

    do {
        digits[count++] = '0' + number % 10;
        number /= 10;
    } while (number > 0);
    while (count > 0)
        sheet->text[sheet->length++] = digits[--count];
    sheet->text[sheet->length++] = after;
}

static void put_line(struct sheet *sheet, size_t place, unsigned code, struct answer answer)
{
    put_number(sheet, place, ' ');
    put_number(sheet, code, ' ');
    put_number(sheet, answer.refusal, ' ');
    if (answer.refusal != 0) {
        put(sheet, "- -\n");
    } else {
        put_number(sheet, answer.ground, ' ');
        put_number(sheet, answer.value, '\n');
    }
}

/* One step: an action on a device that is not valid is refused with 1. */
static struct answer step(struct device *d, struct loan *lent, const struct tape *tape, const uint8_t *record,
                          int tested)
{
    struct bytes manifest = {record, 0};

    if (tested && !valid(d, lent))
        return (struct answer){1, 0, 0};
    if (u16(record + 2) < tape->manifest_count)
        manifest = tape->manifests[u16(record + 2)];
    return act(d, lent, (struct bytes){record, RECORD}, manifest);
}

static void write_sheet(struct sheet *sheet, const struct tape *tape, int tested)
{
    static struct device d;
    static struct loan lent[LOANS];

    memset(&d, 0, sizeof d);
    memset(lent, 0, sizeof lent);
    put(sheet, "answers ");
    put_number(sheet, tape->action_count, '\n');
    for (size_t i = 0; i < tape->action_count; i++) {
        const uint8_t *record = tape->actions + RECORD * i;
        put_line(sheet, i + 1, record[0], step(&d, lent, tape, record, tested));
    }
    put(sheet, "end apps ");
    put_number(sheet, d.app_count, ' ');
    put(sheet, "running ");
    put_number(sheet, __builtin_popcountll(d.running), ' ');
    put(sheet, "lent ");
    put_number(sheet, d.loan_count, '\n');
}

/* Reads a tape of the stream into the buffer; what does not fit is passed over, since no tape is as long. Answers 0 at
 * the stream's end. */
static int next(uint8_t *buffer, size_t room, size_t *length)
{
    uint8_t head[4], rest;

    if (fread(head, 1, 4, stdin) < 4)
        return 0;
    size_t whole = u16(head) | (size_t)u16(head + 2) << 16;
    *length = fread(buffer, 1, whole < room ? whole : room, stdin);
    while (whole > room && fread(&rest, 1, 1, stdin) == 1)
        whole--;
    return 1;
}

int main(int count, char **words)
{
    static uint8_t buffer[65536];
    static struct sheet sheet;
    struct tape tape;
    size_t length;
    int tested = !(count > 1 && strcmp(words[1], "untested") == 0);

    while (next(buffer, sizeof buffer, &length)) {
        sheet.length = 0;
        if (read_tape(buffer, length, &tape))
            write_sheet(&sheet, &tape, tested);
        else
            put(&sheet, "tape refused\n");
        put(&sheet, ".\n");
        if (fwrite(sheet.text, 1, sheet.length, stdout) < sheet.length)
            return 1;
    }
    return fflush(stdout) == 0 ? 0 : 1;
}
