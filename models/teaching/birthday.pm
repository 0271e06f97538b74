// Birthdays: people come into a room one by one until two have the same birthday.
// Source: von Mises, Über Aufteilungs- und Besetzungswahrscheinlichkeiten (1939).
// Parameters: PEOPLE, how many come, given with --const=PEOPLE=23; DAYS, the days of a year, all equally likely.
// Try: the least PEOPLE with an even chance; then DAYS = 687, the year on Mars.
dtmc

const int PEOPLE;
const int DAYS = 365;

module room
  present : [0..PEOPLE] init 0;  // people in the room, all with birthdays of their own while shared is false
  shared : bool init false;

  // weights may depend on the state: so many of the days are taken
  [] present<PEOPLE & !shared -> present/DAYS : (present'=present+1) & (shared'=true)
                               + 1-present/DAYS : (present'=present+1);
endmodule
