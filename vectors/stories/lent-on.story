# A borrower lends on what it has: its ground is looked at when it lends and never again.

# Provider 101 shares, and nothing but a loan opens it to others.
manifest 0
  app 10 signer 5
  activity 100 exported
  provider 101 shares
  resource provider 101 uri 1 first 11
  resource provider 101 uri 2 first 12

manifest 1
  app 20 signer 6
  activity 200 exported

manifest 2
  app 30 signer 7
  activity 300 exported

install manifest 0
install manifest 1
install manifest 2
start component 100 by the person
start component 200 by the person
start component 300 by the person

# Reading alone is lent: the borrower can lend on no more than that.
lend read of provider 101 uri 1 by instance 1 to instance 2
lend both of provider 101 uri 1 by instance 2 to app 30         # 11: no ground for writing
lend read of provider 101 uri 1 by instance 2 to app 30
read provider 101 uri 1 by instance 3                           # ground 4
write 5 to provider 101 uri 1 by instance 3                     # 11
lend write of provider 101 uri 1 by instance 1 to app 30        # the loan to app 30 is widened
write 5 to provider 101 uri 1 by instance 3                     # ground 4
read provider 101 uri 1 by instance 2                           # ground 3, and the value is 5

# The first borrower stops: what it lent on stays.
stop instance 2
read provider 101 uri 1 by instance 3
start component 200 by the person                               # number 2 again, and the old loan is gone
read provider 101 uri 1 by instance 2                           # 11

# A borrower cannot withdraw, not even what it lent on. The owner's withdrawal reaches every loan on the resource.
withdraw read of provider 101 uri 1 by instance 3               # 11
lend read of provider 101 uri 2 by instance 1 to app 30
withdraw read of provider 101 uri 1 by instance 1
read provider 101 uri 1 by instance 3                           # 11
write 6 to provider 101 uri 1 by instance 3                     # ground 4: the loan still carries writing
read provider 101 uri 2 by instance 3                           # ground 4: another resource
withdraw both of provider 101 uri 1 by instance 1
withdraw both of provider 101 uri 1 by instance 1               # done, and changes nothing
write 7 to provider 101 uri 1 by instance 3                     # 11
