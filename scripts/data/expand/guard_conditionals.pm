// Guards by cases and of formulas, in commands that move together, and renamed.
// asks P>=1/2 [ F<=9 x=y&x>1 ]
dtmc
formula may = x<2?true:x=2?b:false;
module m
  x : [0..3];
  b : bool;
  [tick] may -> 1/2 : (x'=x+1) + 1/2 : (b'=!b);
  [tick] !may -> (x'=0);
  [own] x=1?!b:b -> (b'=false);
endmodule
module n = m [ x=y, b=c, own=other ] endmodule
