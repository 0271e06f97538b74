// Address configuration: a new host takes an address at random and asks a few times whether another host uses it.
// Source: Bohnenkamp, van der Stok, Hermanns and Vaandrager, Cost-optimization of the IPv4 zeroconf protocol (2003).
// A probe about a used address is answered unless the probe or the answer is lost. After an answer the host takes another
// address; after PROBES silent probes it keeps the address, and with bad luck uses it beside the other host.
// Parameters: PROBES, given with --const=PROBES=3; HOSTS, of the 65024 addresses; LOSS, how likely a probe stays unanswered.
// Try: PROBES from 1 to 6. The first values of HOSTS and LOSS are those of a very bad network.
dtmc

const int PROBES;
const int HOSTS = 16256;
const double LOSS = 5e-1;
const double USED = HOSTS/65024;

module host
  host : [0..4] init 0;  // 0: takes an address, 1: asks about a used one, 2: asks about a free one, 3: clash, 4: done
  probes : [0..PROBES] init 0;  // sent about this address

  [] host=0 -> USED : (host'=1) & (probes'=0) + 1-USED : (host'=2) & (probes'=0);
  [] host=1 & probes<PROBES -> LOSS : (probes'=probes+1) + 1-LOSS : (host'=0);
  [] host=1 & probes=PROBES -> (host'=3);
  [] host=2 & probes<PROBES -> (probes'=probes+1);
  [] host=2 & probes=PROBES -> (host'=4);
endmodule

label "clash" = host=3;
label "done" = host=4;
