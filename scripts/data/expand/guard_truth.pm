// Guards over truth values, by each operator.
// asks P>=1/2 [ F<=9 a&b&c ]
dtmc
module m
  a : bool;
  b : bool;
  c : bool init true;
  n : [0..3];
  [] true&!a -> 1/2 : (a'=true) + 1/2 : (b'=!b);
  [] false|a&!!c -> (c'=!c) & (n'=min(n+1,3));
  [] a<=>b -> (n'=n);
  [] a=>b -> true;
  [] (a=b)!=c -> (a'=b);
  [] n<1|n<=2|n>3|n>=3 -> true;
endmodule
