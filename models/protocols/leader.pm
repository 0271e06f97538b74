// Leader election: four stations without names of their own draw numbers, until one has the greatest alone.
// Source: Itai and Rodeh, Symmetry breaking in distributed networks (1990).
// A step is a round: all stations that had the greatest number draw again, and the others stay out with 0. How the numbers
// go round the ring in a round isn't modelled.
// Parameters: NUMBERS, the numbers drawn from, which has to be 3 as the command of station1 has three branches.
// Try: a fourth branch and NUMBERS = 4.
dtmc

const int NUMBERS = 3;

formula greatest = max(number1, number2, number3, number4);
formula contenders = (number1=greatest ? 1 : 0) + (number2=greatest ? 1 : 0)
                   + (number3=greatest ? 1 : 0) + (number4=greatest ? 1 : 0);

module station1
  number1 : [0..NUMBERS] init 1;

  [round] contenders>1 & number1=greatest -> 1/NUMBERS : (number1'=1) + 1/NUMBERS : (number1'=2) + 1/NUMBERS : (number1'=3);
  [round] contenders>1 & number1<greatest -> (number1'=0);
endmodule

// Formulas are written out before names are replaced, so both names are: each stands where the other stood.
module station2 = station1 [ number1=number2, number2=number1 ] endmodule
module station3 = station1 [ number1=number3, number3=number1 ] endmodule
module station4 = station1 [ number1=number4, number4=number1 ] endmodule

label "elected" = contenders=1;
