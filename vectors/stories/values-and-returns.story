# A value lasts until its app is uninstalled, a grant until its definer is, and a group grant until its own app is.

manifest 0
  app 10 signer 5
  defines 20 dangerous group 7
  defines 21 dangerous group 0
  activity 100 exported
  provider 101 exported shares read 20
  resource provider 101 uri 1 first 40

manifest 1
  app 20 signer 6
  uses 20 21
  activity 200 exported

install manifest 0
install manifest 1
grant permission 20 to app 20
grant permission 21 to app 20
grant group 7 to app 20
start component 100 by the person
start component 200 by the person
write 41 to provider 101 uri 1 by instance 2    # ground 2: no permission is needed for writing
read provider 101 uri 1 by instance 2
lend read of provider 101 uri 1 by instance 2 to app 20
uninstall app 10                                # 13
stop instance 1
uninstall app 10
read provider 101 uri 1 by instance 2           # 6: the provider is gone
ask whether app 20 holds permission 20          # 9
revoke permission 20 from app 20                # 9
install manifest 0
read provider 101 uri 1 by instance 2           # ground 2 by the group grant, and the first value
ask whether app 20 holds permission 20          # 1: the group is still granted
ask whether app 20 holds permission 21          # 0: group 0 is no group
revoke permission 20 from app 20                # 12: the individual grant went with the definer
revoke group 7 from app 20
read provider 101 uri 1 by instance 2           # 11: permission and loan are gone
grant permission 20 to app 20
read provider 101 uri 1 by instance 2
stop instance 2
uninstall app 20
install manifest 1
ask whether app 20 holds permission 20          # 0
