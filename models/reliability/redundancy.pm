// Triple redundancy with repair: three units compute, a voter takes the majority, and one crew repairs.
// Source: von Neumann, Probabilistic logics (1956); Lyons and Vanderkulk, The use of triple-modular redundancy (1962).
// A step is an hour. The crew shares its hour among the units that are down.
// Parameters: FAILS, how likely a unit fails within an hour; REPAIRED, how likely a unit that the crew has for itself is
// repaired within an hour; VOTER, how likely the voter fails within an hour.
// Try: REPAIRED = 0. Without repair three units are worse than one in the long run.
dtmc

const double FAILS = 0.02;
const double REPAIRED = 0.25;
const double VOTER = 0.0005;

formula down = (up1 ? 0 : 1) + (up2 ? 0 : 1) + (up3 ? 0 : 1);

module unit1
  up1 : bool init true;

  [hour] up1 -> FAILS : (up1'=false) + 1-FAILS : true;
  [hour] !up1 -> REPAIRED/down : (up1'=true) + 1-REPAIRED/down : true;
endmodule

// `down` is written out before names are replaced: swapping two names leaves the count as it is
module unit2 = unit1 [ up1=up2, up2=up1 ] endmodule
module unit3 = unit1 [ up1=up3, up3=up1 ] endmodule

module voter
  votes : bool init true;

  [hour] votes -> VOTER : (votes'=false) + 1-VOTER : true;
  [hour] !votes -> true;
endmodule

label "works" = votes & down<=1;
