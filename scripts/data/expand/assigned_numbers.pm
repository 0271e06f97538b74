// Right sides of numbers, by each operator and function.
// asks P>=1/2 [ F<=8 a=b ]
// asks P>=1/2 [ G<=8 c<4 ]
dtmc
module m
  a : [-9..9] init 1;
  b : [-9..9];
  c : [-9..9];
  d : [-9..9];
  [] a<3 -> 1/2 : (a'=a+1) & (b'=-a) & (c'=(b)) + 1/2 : (a'=a*2-a) & (d'=floor(a/2));
  [] b<=a -> 0.3 : (b'=min(a,b+4,6)) & (c'=max(b,c,2)) + 0.7 : (d'=ceil(2.5)) & (a'=pow(a,1));
  [] a>=3&c>0 -> (c'=mod(a+c,3)) & (a'=2- -1);
endmodule
