# Who holds a permission of the levels signature and signature/system: the definer's signer, and for the second an image app.

manifest 0
  app 10 signer 5
  defines 20 signature
  defines 21 signature/system
  provider 101 exported read 20 write 21
  resource provider 101 uri 1 first 0

manifest 1                              # the definer's signer
  app 20 signer 5
  uses 20 21
  activity 200 exported

manifest 2                              # another signer
  app 30 signer 6
  uses 7 8 20 21
  activity 300 exported

manifest 3                              # the platform's signer
  app 40 signer 1
  uses 7 8 9

manifest 4                              # the definer's signer, but it lists nothing
  app 50 signer 5

install manifest 0
install manifest 1
install manifest 2 as image
install manifest 3
install manifest 4
ask whether app 20 holds permission 20
ask whether app 20 holds permission 21
ask whether app 30 holds permission 20  # 0: an image app, and the level is signature
ask whether app 30 holds permission 21  # 1: an image app
ask whether app 30 holds permission 7   # 0
ask whether app 30 holds permission 8   # 1
ask whether app 40 holds permission 7   # 1: the platform's signer
ask whether app 40 holds permission 8
ask whether app 40 holds permission 9   # refused, 9: undefined
ask whether app 50 holds permission 20  # 0: not listed
start component 200 by the person
start component 300 by the person
read provider 101 uri 1 by instance 1   # ground 2
write 3 to provider 101 uri 1 by instance 1
read provider 101 uri 1 by instance 2   # 11
write 4 to provider 101 uri 1 by instance 2
grant permission 20 to app 30           # 10: not dangerous
stop instance 2
uninstall app 30                        # 14: part of the image
uninstall app 10
ask whether app 20 holds permission 20  # 9: its definer is gone
