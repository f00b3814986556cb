//! Lines about benches and messages, and what is said of each in the indented lines below it. The sketch's first three lines
//! say four benches of which 3 breaks the rules, and beats 0 to 10.

pub const LINES: &str = "
sleep 2
    line 4, column 1: expected 'title', 'benches', 'keepers', 'beats', 'mistake', 'LOG', 'PROPOSAL', 'all'
    or a bench from 0 to 3, found 'sleep'
2 sleep 3
    line 4, column 3: expected another bench, 'sleeps', 'begins', 'offers' or 'sends', found 'sleep'
4 sleeps 3
    line 4, column 1: expected 'all' or a bench from 0 to 3, found '4'
2x sleeps 3
    line 4, column 1: expected 'all' or a bench from 0 to 3, found '2x'
1-3 sleeps 3
    line 4, column 1: expected a rule-keeper, 0 to 2 (bench 3 breaks the rules), found '1-3'
2 sleeps
    line 4, column 9: expected a beat from 0 to 10 (the sketch's beats), found the end of the line
2 sleeps 11
    line 4, column 10: expected a beat from 0 to 10 (the sketch's beats), found '11'
2 sleeps 99999999999999999999999
    line 4, column 10: expected a beat from 0 to 10 (the sketch's beats), found '99999999999999999999999'
2 sleeps +3
    line 4, column 10: expected a beat from 0 to 10 (the sketch's beats), found '+3'
2 sleeps 3 all
    line 4, column 12: expected another beat or the end of the line, found 'all'
2 sleeps 3
1 2 begins 1-4
    line 5, column 12: expected another beat (bench 2 sleeps at beat 3 already), found '1-4'
all begins 3
2 sleeps 4 3
    line 5, column 12: expected another beat (bench 2 begins beat 3 already), found '3'
0 1 offers 5 at 4
    line 4, column 5: expected another bench, 'sleeps' or 'begins'
    (only one bench at a time 'offers' or 'sends'), found 'offers'
all sends LOG v0 [] to 0 at 1
    line 4, column 5: expected 'sleeps' or 'begins' (only one bench at a time 'offers' or 'sends'), found 'sends'
3 offers 5 at 4
    line 4, column 1: expected a rule-keeper, 0 to 2 (bench 3 breaks the rules), found '3'
0 offers at 4
    line 4, column 10: expected a block such as 5 or 5*3, found 'at'
0 offers 0 at 4
    line 4, column 10: expected a block's name from 1 to 18446744073709551615, found '0'
0 offers 18446744073709551616 at 4
    line 4, column 10: expected a block's name from 1 to 18446744073709551615, found '18446744073709551616'
0 offers 5*65536 at 4
    line 4, column 12: expected a number of entries from 0 to 65535, found '65536'
0 offers 5 at 3
    line 4, column 15: expected a beat 4v (a block is used at beats 4v only: 0, 4, 8, .. up to 4000000), found '3'
0 offers 5 at 12
    line 4, column 15: expected a beat from 0 to 10 (the sketch's beats), found '12'
0 offers 5 at 4 prio 3
    line 4, column 17: expected 'priority' or the end of the line, found 'prio'
0 offers 5 at 4 priority 18446744073709551616
    line 4, column 26: expected a priority from 0 to 18446744073709551615, found '18446744073709551616'
0 offers 5 at 4
0 offers 6 at 4
    line 5, column 15: expected another beat (bench 0 offers a block at beat 4 already), found '4'
0 offers 5 at 4
0 sleeps 4
    line 4, column 15: expected a beat at which bench 0 is awake (it sleeps at beat 4), found '4'
0 begins 4
0 offers 5 at 4
    line 5, column 15: expected a beat at which bench 0 is awake (it begins beat 4 and does not act in it), found '4'
0 sends LOG v0 [] to 1 at 1
    line 4, column 1: expected a rule-breaker (bench 0 keeps the rules), found '0'
3 sends LOGS v0 [] to 1 at 1
    line 4, column 9: expected 'LOG' or 'PROPOSAL', found 'LOGS'
3 sends LOG 0 [] to 1 at 1
    line 4, column 13: expected a view from v0 to v1000000, found '0'
3 sends LOG v1000001 [] to 1 at 1
    line 4, column 13: expected a view from v0 to v1000000, found 'v1000001'
3 sends LOG v0 as 4 [] to 1 at 1
    line 4, column 19: expected a bench from 0 to 3, found '4'
3 sends LOG v0 to 1 at 1
    line 4, column 16: expected 'as' or a log such as [5 6*3], found 'to'
3 sends LOG v0 [5 to 1 at 1
    line 4, column 19: expected ']' or a block such as 5 or 5*3, found 'to'
3 sends LOG v0 [5,] to 1 at 1
    line 4, column 19: expected a block such as 5 or 5*3, found ']'
3 sends LOG v0 [5
    line 4, column 18: expected ']' or a block such as 5 or 5*3, found the end of the line
3 sends LOG v0 [] priority 3 to 1 at 1
    line 4, column 19: expected 'to' (a LOG has no priority), found 'priority'
3 sends PROPOSAL v0 [] 1 at 1
    line 4, column 24: expected 'priority' or 'to', found '1'
3 sends LOG v0 [] to 0-3 at 1
    line 4, column 22: expected a rule-keeper, 0 to 2 (bench 3 breaks the rules), found '0-3'
3 sends LOG v0 [] to 1 on 1
    line 4, column 24: expected another bench or 'at', found 'on'
3 sends LOG v0 [] to 1 at 11
    line 4, column 27: expected a beat from 0 to 10 (the sketch's beats), found '11'
3 sends LOG v0 [] to 0 2 at 3
2 sleeps 3
    line 4, column 24: expected a bench that begins beat 3
    (bench 2 does not begin beat 3, so nothing can be handed to it then), found '2'
3 sends LOG v0 [] to 2 at 3
2 sleeps 3
2 begins 3
    line 4, column 22: expected a bench that begins beat 3
    (bench 2 does not begin beat 3, so nothing can be handed to it then), found '2'
LOG v0 by 1 never reaches 2
    line 4, column 8: expected 'of', found 'by'
LOG v0 of 1 arrives
    line 4, column 13: expected a log such as [5 6*3], 'never' or 'reaches', found 'arrives'
LOG v0 of 1 never reaches 3
    line 4, column 27: expected a rule-keeper, 0 to 2 (bench 3 breaks the rules), found '3'
LOG v0 of 1 never reaches 2 at 3
    line 4, column 29: expected another bench or the end of the line, found 'at'
LOG v0 of 1 reaches 2
    line 4, column 22: expected another bench or 'at', found the end of the line
LOG v0 of 1 reaches 2 at 1
    line 4, column 26: expected a beat from 2 to 6
    (a LOG of view 0 is made at beat 1 at the earliest, and taken up to beat 6), found '1'
LOG v0 of 1 reaches 2 at 7
    line 4, column 26: expected a beat from 2 to 6
    (a LOG of view 0 is made at beat 1 at the earliest, and taken up to beat 6), found '7'
PROPOSAL v1 of 1 reaches 2 at 6
    line 4, column 31: expected beat 5
    (a PROPOSAL of view 1 is made at beat 4 at the earliest, and taken up to beat 5), found '6'
PROPOSAL v1 of 1 reaches 2 at 4
    line 4, column 31: expected beat 5
    (a PROPOSAL of view 1 is made at beat 4 at the earliest, and taken up to beat 5), found '4'
PROPOSAL v1 of 3 never reaches 2
    line 4, column 16: expected a rule-keeper, 0 to 2 (rule-breakers' PROPOSALs are not passed on), found '3'
LOG v0 of 1 reaches all at 3
2 sleeps 3
    line 4, column 21: expected a bench that begins beat 3
    (bench 2 does not begin beat 3, so nothing can be handed to it then), found 'all'
LOG v0 of 1 reaches 0 1 at 3
1 sleeps 3
    line 4, column 23: expected a bench that begins beat 3
    (bench 1 does not begin beat 3, so nothing can be handed to it then), found '1'
LOG v0 of 3 [5] reaches 0 2 at 3
LOG v0 of 3 never reaches 2
    line 5, column 27: expected another bench (when this message reaches bench 2 is said already), found '2'
";
