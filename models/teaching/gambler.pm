// The gambler's ruin: one coin a round on red, until the gambler has GOAL coins or none.
// Source: Huygens, De ratiociniis in ludo aleae (1657); Feller, volume 1 (1968), chapter XIV.
// Parameters: STAKE, the coins at the start, given with --const=STAKE=5; GOAL; WIN, as at a wheel with one zero.
// Try: each STAKE from 1 to 9 in a shell loop, or WIN = 1/2, where ruin has the probability 1 - STAKE/GOAL.
dtmc

const int STAKE;
const int GOAL = 10;
const double WIN = 18/37;

module gambler
  coins : [0..GOAL] init STAKE;

  [] coins>0 & coins<GOAL -> WIN : (coins'=coins+1) + 1-WIN : (coins'=coins-1);
endmodule

label "rich" = coins=GOAL;
label "ruined" = coins=0;
