// Self-stabilisation on a ring: from any number of tokens, and without a leader, to a single one.
// Source: Herman, Probabilistic self-stabilization (1990).
// A station has a token where its bit is that of the station before it. All step at once: a station with a token draws a
// new bit, which keeps the token or passes it on; the others copy the bit before theirs. Tokens that meet vanish in pairs.
// The ring begins with a token at each of its seven stations.
// Try: nine stations, or initial bits that give three tokens far apart, the slowest start. The expected number of steps is
// at most 4/27 of the square of the number of stations (Bruna and others, 2016).
dtmc

formula tokens = (bit1<=>bit7 ? 1 : 0) + (bit2<=>bit1 ? 1 : 0) + (bit3<=>bit2 ? 1 : 0) + (bit4<=>bit3 ? 1 : 0)
               + (bit5<=>bit4 ? 1 : 0) + (bit6<=>bit5 ? 1 : 0) + (bit7<=>bit6 ? 1 : 0);

module station1
  bit1 : bool init false;

  [step] bit1<=>bit7 -> 1/2 : (bit1'=true) + 1/2 : (bit1'=false);
  [step] !(bit1<=>bit7) -> (bit1'=bit7);
endmodule

module station2 = station1 [ bit1=bit2, bit7=bit1 ] endmodule
module station3 = station1 [ bit1=bit3, bit7=bit2 ] endmodule
module station4 = station1 [ bit1=bit4, bit7=bit3 ] endmodule
module station5 = station1 [ bit1=bit5, bit7=bit4 ] endmodule
module station6 = station1 [ bit1=bit6, bit7=bit5 ] endmodule
module station7 = station1 [ bit1=bit7, bit7=bit6 ] endmodule

label "stable" = tokens=1;
