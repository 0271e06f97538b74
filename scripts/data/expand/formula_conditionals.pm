// Formulas by cases that use one another, after the modules that use them, and a renamed module.
// asks P>=1/2 [ F<=8 "both" ]
// asks P>=1/2 [ G<=3 ready ]
dtmc
label "both" = x=2&y=2;
module left
  x : [0..2];
  [go] ready -> chance : (x'=next) + 1-chance : (x'=x);
endmodule
module right = left [ x=y, go=stop ] endmodule
formula chance = ready ? half : one-half;
formula half = 0.50;
formula one = 1;
formula ready = x<2;
formula next = !ready ? 0 : x=1 ? 2 : 1;
