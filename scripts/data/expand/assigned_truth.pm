// Right sides that are truth values, by each operator.
// asks P>=1/2 [ F<=8 a&b&e ]
dtmc
module m
  n : [0..3];
  a : bool;
  b : bool;
  c : bool;
  d : bool;
  e : bool;
  [] n<3 -> 1/2 : (a'=!b) & (b'=a|c) & (n'=n+1) + 1/2 : (c'=true) & (d'=n<1) & (e'=n<=1);
  [] n>=1 -> (a'=n>1&b) & (b'=n>=2) & (c'=n=2.0) & (d'=n!=3) & (e'=(a<=>b));
  [] a -> (d'=a=>b) & (e'=false) & (n'=(0));
endmodule
