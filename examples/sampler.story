# The honey sampler's results, lent to the report printer one record at a time. On this tape a refused read and a
# result of 0 stand side by side: the first must never be printed as the second.
#
#     tape pack examples/sampler.story > sampler.tape
#     tape explain sampler.tape

# The sampler keeps its results in provider 101. Reading them takes permission 20, which it defines itself.
manifest 0
  app 10 signer 5
  defines 20 dangerous group 0
  activity 100 exported
  provider 101 exported shares read 20 write 20
  resource provider 101 uri 1 first 0       # residues in sample 1: tested, none found
  resource provider 101 uri 2 first 184     # water in sample 1, in tenths of a percent

# The report printer comes from another vendor. It would like permission 20, and nobody has granted it.
manifest 1
  app 20 signer 6
  uses 20
  activity 200 exported

install manifest 0
install manifest 1
start component 100 by the person           # the sampler runs as instance 1
start component 200 by the person           # the printer runs as instance 2

# The sampler reads its own record: done, and the value is 0.
read provider 101 uri 1 by instance 1

# The printer may not, so it gets a refusal and no value at all.
ask whether app 20 holds permission 20
read provider 101 uri 1 by instance 2

# The sampler lends it this one record for reading. Now the 0 is a result; writing and the other record stay shut.
lend read of provider 101 uri 1 by instance 1 to instance 2
read provider 101 uri 1 by instance 2
write 7 to provider 101 uri 1 by instance 2
read provider 101 uri 2 by instance 2

# The loan is withdrawn: the same read is refused again.
withdraw read of provider 101 uri 1 by instance 1
read provider 101 uri 1 by instance 2

# The printer stops and leaves. The sampler cannot leave while its instance runs.
stop instance 2
uninstall app 20
uninstall app 10
