// The coupon collector: how many packets until one has a picture of each kind? With six kinds: until each face of a die.
// Source: de Moivre, De mensura sortis (1711); Feller, volume 1 (1968), chapter IX.
// Parameters: KINDS, how many kinds there are, all equally likely.
// Try: KINDS = 10, and the horizon with an even chance. It grows like KINDS * ln KINDS.
probabilistic  // an older spelling of dtmc, read alike

const int KINDS = 6;

formula found = KINDS - missing;

module collector
  missing : [0..KINDS] init KINDS;

  [] missing>0 -> missing/KINDS : (missing'=missing-1) + found/KINDS : true;
endmodule

label "complete" = missing=0;
