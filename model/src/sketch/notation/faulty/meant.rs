//! Lines that mean something else than they say, with the head of the other lines.

pub const MEANT: &str = "
2 sleeps 0–2
    line 4, column 10: expected a beat from 0 to 10 (the sketch's beats), found '0–2' (a range is written with '-')
0—1 sleeps 2
    line 4, column 1: expected 'all' or a bench from 0 to 3, found '0—1' (a range is written with '-')
3 sends LOG v0 [] to 0 – 2 at 1
    line 4, column 24: expected another bench or 'at', found '–' (a range is written with '-')
LOG v0 of 0 never reaches 1−2
    line 4, column 27: expected 'all' or a rule-keeper, 0 to 2, found '1−2' (a range is written with '-')
2 sleeps a–b
    line 4, column 10: expected a beat from 0 to 10 (the sketch's beats), found 'a–b'
log v0 of 1 never reaches 2
    line 4, column 1: expected 'title', 'benches', 'keepers', 'beats', 'mistake', 'LOG', 'PROPOSAL', 'all'
    or a bench from 0 to 3, found 'log' (capital letters matter: 'LOG')
Title Four
    line 4, column 1: expected 'title', 'benches', 'keepers', 'beats', 'mistake', 'LOG', 'PROPOSAL', 'all'
    or a bench from 0 to 3, found 'Title' (capital letters matter: 'title')
2 SLEEPS 3
    line 4, column 3: expected another bench, 'sleeps', 'begins', 'offers' or 'sends',
    found 'SLEEPS' (capital letters matter: 'sleeps')
3 sends Proposal v0 [] to 1 at 1
    line 4, column 9: expected 'LOG' or 'PROPOSAL', found 'Proposal' (capital letters matter: 'PROPOSAL')
3 sends LOG v0 [] to 4 at 1
    line 4, column 22: expected 'all' or a rule-keeper, 0 to 2, found '4'
3 sends LOG v0 [] to 0-4 at 1
    line 4, column 24: expected the end of the range, from 0 to 2, found '4'
LOG v0 of 0 reaches 4 at 2
    line 4, column 21: expected 'all' or a rule-keeper, 0 to 2, found '4'
LOG v3 of 0 never reaches 1
    line 4, column 5: expected a view of which the sketch has beats, v0 to v2 (LOGs: 4v+1 to 4v+6), found 'v3'
LOG v9 of 0 reaches 1 at 4
    line 4, column 5: expected a view of which the sketch has beats, v0 to v2 (LOGs: 4v+1 to 4v+6), found 'v9'
PROPOSAL v3 of 0 never reaches 1
    line 4, column 10: expected a view of which the sketch has beats, v0 to v2 (PROPOSALs: 4v to 4v+1), found 'v3'
LOG v0 of 1 never reaches 1
    line 4, column 27: expected another bench (nobody hands bench 1 its own LOG), found '1'
LOG v0 of 1 reaches 1 at 3
    line 4, column 21: expected another bench (nobody hands bench 1 its own LOG), found '1'
LOG v0 of 1 [7] never reaches 1
3 sends LOG v0 as 1 [8] to 0 at 2
    line 4, column 31: expected another bench
    (nobody hands bench 1 its own LOG, and no rule-breaker sends this one as 1), found '1'
PROPOSAL v0 of 1 never reaches 1
3 sends PROPOSAL v0 as 1 [8] to 0 at 1
    line 4, column 32: expected another bench (nobody hands bench 1 its own PROPOSAL), found '1'
LOG v0 of 1 never reaches 1
3 sends LOG v0 as 1 [8] to 0
    line 5, column 29: expected another bench or 'at', found the end of the line
";
