begin_version
3
end_version
begin_metric
0
end_metric
25
begin_variable
sw0
-1
2
open
closed
end_variable
begin_variable
sw1
-1
2
open
closed
end_variable
begin_variable
sw2
-1
2
open
closed
end_variable
begin_variable
sw3
-1
2
open
closed
end_variable
begin_variable
sw4
-1
2
open
closed
end_variable
begin_variable
sw5
-1
2
open
closed
end_variable
begin_variable
sw6
-1
2
open
closed
end_variable
begin_variable
sw7
-1
2
open
closed
end_variable
begin_variable
sw8
-1
2
open
closed
end_variable
begin_variable
fed0
0
2
no
yes
end_variable
begin_variable
fed1
0
2
no
yes
end_variable
begin_variable
fed2
0
2
no
yes
end_variable
begin_variable
fed3
0
2
no
yes
end_variable
begin_variable
fed4
0
2
no
yes
end_variable
begin_variable
fed5
0
2
no
yes
end_variable
begin_variable
fed6
0
2
no
yes
end_variable
begin_variable
fed7
0
2
no
yes
end_variable
begin_variable
dark0
1
2
yes
no
end_variable
begin_variable
dark1
1
2
yes
no
end_variable
begin_variable
dark2
1
2
yes
no
end_variable
begin_variable
dark3
1
2
yes
no
end_variable
begin_variable
dark4
1
2
yes
no
end_variable
begin_variable
dark5
1
2
yes
no
end_variable
begin_variable
dark6
1
2
yes
no
end_variable
begin_variable
dark7
1
2
yes
no
end_variable
0
begin_state
0
0
0
1
0
0
0
0
1
0
0
0
0
0
0
0
0
1
1
1
1
1
1
1
1
end_state
begin_goal
4
16 1
14 1
13 1
19 0
end_goal
18
begin_operator
close 0
0
1
0 0 0 1
1
end_operator
begin_operator
open 0
0
1
0 0 1 0
1
end_operator
begin_operator
close 1
0
1
0 1 0 1
1
end_operator
begin_operator
open 1
1
11 0
1
0 1 1 0
1
end_operator
begin_operator
close 2
0
1
0 2 0 1
1
end_operator
begin_operator
open 2
0
1
0 2 1 0
1
end_operator
begin_operator
close 3
0
1
0 3 0 1
1
end_operator
begin_operator
open 3
0
1
0 3 1 0
1
end_operator
begin_operator
close 4
0
1
0 4 0 1
1
end_operator
begin_operator
open 4
0
1
0 4 1 0
1
end_operator
begin_operator
close 5
0
1
0 5 0 1
1
end_operator
begin_operator
open 5
0
1
0 5 1 0
1
end_operator
begin_operator
close 6
0
1
0 6 0 1
1
end_operator
begin_operator
open 6
1
16 0
1
0 6 1 0
1
end_operator
begin_operator
close 7
0
1
0 7 0 1
1
end_operator
begin_operator
open 7
0
1
0 7 1 0
1
end_operator
begin_operator
close 8
0
1
0 8 0 1
1
end_operator
begin_operator
open 8
1
16 0
1
0 8 1 0
1
end_operator
28
begin_rule
0
9 0 1
end_rule
begin_rule
0
15 0 1
end_rule
begin_rule
2
0 1
9 1
10 0 1
end_rule
begin_rule
2
0 1
10 1
9 0 1
end_rule
begin_rule
2
1 1
9 1
11 0 1
end_rule
begin_rule
2
1 1
11 1
9 0 1
end_rule
begin_rule
2
2 1
10 1
12 0 1
end_rule
begin_rule
2
2 1
12 1
10 0 1
end_rule
begin_rule
2
3 1
12 1
13 0 1
end_rule
begin_rule
2
3 1
13 1
12 0 1
end_rule
begin_rule
2
4 1
13 1
14 0 1
end_rule
begin_rule
2
4 1
14 1
13 0 1
end_rule
begin_rule
2
5 1
9 1
15 0 1
end_rule
begin_rule
2
5 1
15 1
9 0 1
end_rule
begin_rule
2
6 1
13 1
16 0 1
end_rule
begin_rule
2
6 1
16 1
13 0 1
end_rule
begin_rule
2
7 1
11 1
16 0 1
end_rule
begin_rule
2
7 1
16 1
11 0 1
end_rule
begin_rule
2
8 1
12 1
16 0 1
end_rule
begin_rule
2
8 1
16 1
12 0 1
end_rule
begin_rule
1
9 0
17 1 0
end_rule
begin_rule
1
10 0
18 1 0
end_rule
begin_rule
1
11 0
19 1 0
end_rule
begin_rule
1
12 0
20 1 0
end_rule
begin_rule
1
13 0
21 1 0
end_rule
begin_rule
1
14 0
22 1 0
end_rule
begin_rule
1
15 0
23 1 0
end_rule
begin_rule
1
16 0
24 1 0
end_rule
