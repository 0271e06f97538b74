// A majority of components: five units without repair, and the system works while most of them do.
// Source: a k-out-of-n system; Barlow and Proschan, Statistical Theory of Reliability and Life Testing (1975).
// All units age at once: a step is an hour.
// Parameters: FAILS, how likely a unit fails within an hour.
// Try: a single unit in place of the five. For how long are the five better?
dtmc

const double FAILS = 1e-2;
const int UNITS = 5;

formula working = (up1 ? 1 : 0) + (up2 ? 1 : 0) + (up3 ? 1 : 0) + (up4 ? 1 : 0) + (up5 ? 1 : 0);

module unit1
  up1 : bool init true;

  [hour] up1 -> 1-FAILS : true + FAILS : (up1'=false);
  [hour] !up1 -> true;
endmodule

module unit2 = unit1 [ up1=up2 ] endmodule
module unit3 = unit1 [ up1=up3 ] endmodule
module unit4 = unit1 [ up1=up4 ] endmodule
module unit5 = unit1 [ up1=up5 ] endmodule

label "works" = working >= floor(UNITS/2) + 1;
