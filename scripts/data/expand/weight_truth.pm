// Weights by conditions, of each operator on truth values.
// asks P>=1/2 [ F<=9 x=4 ]
dtmc
module m
  x : [0..4];
  b : bool;
  [] x=0 -> (true?1/2:0):(x'=1) + (false|b?1:0.5):(b'=b);
  [] x=1 -> (!b?1:0):(x'=2) + (b?1:0):(x'=0);
  [] x=2 -> (x<3&x<=2&x>1&x>=2?1/3:1/2):(x'=3) + (x!=2?1/2:2/3):true;
  [] x=3 -> ((b=>x=3)?1:0):(x'=4) + (b<=>x=3?1:0):(x'=0)&(b'=!b);
endmodule
