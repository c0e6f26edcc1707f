# Several refusals apply to one action: the smallest number is the answer, and what is missing has no further conditions.

manifest 0
  app 10 signer 5
  uses 3
  defines 20 normal
  activity 100 exported
  provider 101 shares
  activity 102
  service 103 exported start 20
  resource provider 101 uri 1 first 1

manifest 1                                                      # taken: the app's number, a component, a permission
  app 10 signer 6
  defines 20 normal
  activity 100

manifest 2                                                      # no manifest at all
  bytes 0a 00

install manifest 2                                              # 3
install manifest 0
install manifest 1                                              # 4
install manifest 9                                              # 3: past the last manifest
grant permission 9 to app 11                                    # 5 before 9
grant permission 9 to app 10                                    # 9
grant permission 1 to app 10                                    # 10: normal
grant permission 4 to app 10                                    # 10: not listed
grant permission 3 to app 10
grant permission 3 to app 10                                    # 4
grant group 0 to app 10                                         # 9
grant group 16 to app 11                                        # 5 before 9
grant group 2 to app 10                                         # 10: no listed permission of it
revoke group 1 from app 10                                      # 12
revoke permission 259 from app 10                               # 9, and not 3 by its low byte
start component 101 by the person                               # 6: a provider
start component 102 by the person                               # 11: not exported
start component 103 by the person                               # 11: no activity
start component 104 by instance 9                               # 6 before 7
start component 100 by instance 9                               # 7
start component 100 by the person
start component 102 by instance 1                               # its own app
read provider 100 uri 9 by instance 9                           # 6 before 7 and 8
read provider 101 uri 9 by instance 9                           # 7 before 8
read provider 101 uri 9 by instance 1                           # 8
lend both of provider 100 uri 9 by instance 9 to app 11         # 5 before 6, 7 and 8
lend both of provider 100 uri 9 by instance 9 to app 10         # 6
lend both of provider 101 uri 9 by instance 1 to instance 65537 # 7 before 8, and not 1 by its low bytes
lend both of provider 101 uri 9 by instance 1 to app 65546      # 5
record 0b 00 65 00 01 00 01 00 01 00 00 00                      # 2: no operation
record 0b 04 65 00 09 00 09 00 09 00 00 00                      # 2: an operation that there is not
record 08 00 01 00 09 00 00 00 00 00 00 00                      # 2: a field that a stop has not
uninstall app 10                                                # 13
