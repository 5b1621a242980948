begin_version
3
end_version
begin_metric
1
end_metric
19
begin_variable
device-top0
-1
2
open
closed
end_variable
begin_variable
device-top0-low0
-1
2
open
closed
end_variable
begin_variable
device-top0-top1
-1
2
open
closed
end_variable
begin_variable
device-low0-low1
-1
2
open
closed
end_variable
begin_variable
device-low1
-1
2
open
closed
end_variable
begin_variable
device-top1
-1
2
open
closed
end_variable
begin_variable
device-top1-low1
-1
2
open
closed
end_variable
begin_variable
fed-top0
0
2
no
yes
end_variable
begin_variable
fed-low0
0
2
no
yes
end_variable
begin_variable
fed-top1
0
2
no
yes
end_variable
begin_variable
fed-low1
0
2
no
yes
end_variable
begin_variable
bad-top0
0
2
no
yes
end_variable
begin_variable
bad-low0
0
2
no
yes
end_variable
begin_variable
bad-top1
0
2
no
yes
end_variable
begin_variable
bad-low1
0
2
no
yes
end_variable
begin_variable
load-top0-low0
1
2
no
yes
end_variable
begin_variable
load-top0-top1
1
2
no
yes
end_variable
begin_variable
load-low0-low1
1
2
no
yes
end_variable
begin_variable
load-top1-low1
1
2
no
yes
end_variable
0
begin_state
0
1
1
1
0
0
1
0
0
0
0
0
0
0
0
0
0
0
0
end_state
begin_goal
2
7 1
10 1
end_goal
14
begin_operator
open top0
0
1
0 0 1 0
1
end_operator
begin_operator
close top0
0
2
0 0 0 1
1 11 1 0 -1 0
1
end_operator
begin_operator
open top0-low0
1
15 0
1
0 1 1 0
1
end_operator
begin_operator
close top0-low0
1
15 0
7
0 1 0 1
2 7 1 12 1 0 -1 0
2 7 1 12 1 4 -1 0
2 7 1 12 1 5 -1 0
2 8 1 11 1 0 -1 0
2 8 1 11 1 4 -1 0
2 8 1 11 1 5 -1 0
1
end_operator
begin_operator
open top0-top1
1
16 0
1
0 2 1 0
1
end_operator
begin_operator
close top0-top1
1
16 0
7
0 2 0 1
2 7 1 13 1 0 -1 0
2 7 1 13 1 4 -1 0
2 7 1 13 1 5 -1 0
2 9 1 11 1 0 -1 0
2 9 1 11 1 4 -1 0
2 9 1 11 1 5 -1 0
1
end_operator
begin_operator
open low0-low1
1
17 0
1
0 3 1 0
1
end_operator
begin_operator
close low0-low1
1
17 0
7
0 3 0 1
2 8 1 14 1 0 -1 0
2 8 1 14 1 4 -1 0
2 8 1 14 1 5 -1 0
2 10 1 12 1 0 -1 0
2 10 1 12 1 4 -1 0
2 10 1 12 1 5 -1 0
1
end_operator
begin_operator
open low1
0
1
0 4 1 0
1
end_operator
begin_operator
close low1
0
2
0 4 0 1
1 14 1 4 -1 0
1
end_operator
begin_operator
open top1
0
1
0 5 1 0
1
end_operator
begin_operator
close top1
0
2
0 5 0 1
1 13 1 5 -1 0
1
end_operator
begin_operator
open top1-low1
1
18 0
1
0 6 1 0
1
end_operator
begin_operator
close top1-low1
1
18 0
7
0 6 0 1
2 9 1 14 1 0 -1 0
2 9 1 14 1 4 -1 0
2 9 1 14 1 5 -1 0
2 10 1 13 1 0 -1 0
2 10 1 13 1 4 -1 0
2 10 1 13 1 5 -1 0
1
end_operator
25
begin_rule
1
0 1
7 0 1
end_rule
begin_rule
1
4 1
10 0 1
end_rule
begin_rule
1
5 1
9 0 1
end_rule
begin_rule
0
12 0 1
end_rule
begin_rule
0
13 0 1
end_rule
begin_rule
2
1 1
7 1
8 0 1
end_rule
begin_rule
2
1 1
8 1
7 0 1
end_rule
begin_rule
2
2 1
7 1
9 0 1
end_rule
begin_rule
2
2 1
9 1
7 0 1
end_rule
begin_rule
2
3 1
8 1
10 0 1
end_rule
begin_rule
2
3 1
10 1
8 0 1
end_rule
begin_rule
2
6 1
9 1
10 0 1
end_rule
begin_rule
2
6 1
10 1
9 0 1
end_rule
begin_rule
2
1 1
11 1
12 0 1
end_rule
begin_rule
2
1 1
12 1
11 0 1
end_rule
begin_rule
2
2 1
11 1
13 0 1
end_rule
begin_rule
2
2 1
13 1
11 0 1
end_rule
begin_rule
2
3 1
12 1
14 0 1
end_rule
begin_rule
2
3 1
14 1
12 0 1
end_rule
begin_rule
2
6 1
13 1
14 0 1
end_rule
begin_rule
2
6 1
14 1
13 0 1
end_rule
begin_rule
2
7 1
8 1
15 0 1
end_rule
begin_rule
2
7 1
9 1
16 0 1
end_rule
begin_rule
2
8 1
10 1
17 0 1
end_rule
begin_rule
2
9 1
10 1
18 0 1
end_rule
