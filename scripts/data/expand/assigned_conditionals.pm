// Right sides by cases and of formulas, renamed, and of commands that move together.
// asks P>=1/2 [ F<=8 x=2&y=2 ]
dtmc
formula next = x<2?x+1:b?0:2;
module m
  x : [0..2];
  b : bool;
  [both] true -> 1/2 : (x'=next) + 1/2 : (x'=x=2?2:0) & (b'=x>0?!b:b&true);
endmodule
module n = m [ x=y, b=c ] endmodule
