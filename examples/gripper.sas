begin_version
3
end_version
begin_metric
0
end_metric
7
begin_variable
robot
-1
2
roomA
roomB
end_variable
begin_variable
hand-l
-1
2
free
busy
end_variable
begin_variable
hand-r
-1
2
free
busy
end_variable
begin_variable
ball0
-1
4
roomA
roomB
hand-l
hand-r
end_variable
begin_variable
ball1
-1
4
roomA
roomB
hand-l
hand-r
end_variable
begin_variable
ball2
-1
4
roomA
roomB
hand-l
hand-r
end_variable
begin_variable
ball3
-1
4
roomA
roomB
hand-l
hand-r
end_variable
0
begin_state
0
0
0
0
0
0
0
end_state
begin_goal
4
3 1
4 1
5 1
6 1
end_goal
34
begin_operator
move a b
0
1
0 0 0 1
1
end_operator
begin_operator
move b a
0
1
0 0 1 0
1
end_operator
begin_operator
pick ball0 a l
1
0 0
2
0 3 0 2
0 1 0 1
1
end_operator
begin_operator
drop ball0 a l
1
0 0
2
0 3 2 0
0 1 1 0
1
end_operator
begin_operator
pick ball0 a r
1
0 0
2
0 3 0 3
0 2 0 1
1
end_operator
begin_operator
drop ball0 a r
1
0 0
2
0 3 3 0
0 2 1 0
1
end_operator
begin_operator
pick ball0 b l
1
0 1
2
0 3 1 2
0 1 0 1
1
end_operator
begin_operator
drop ball0 b l
1
0 1
2
0 3 2 1
0 1 1 0
1
end_operator
begin_operator
pick ball0 b r
1
0 1
2
0 3 1 3
0 2 0 1
1
end_operator
begin_operator
drop ball0 b r
1
0 1
2
0 3 3 1
0 2 1 0
1
end_operator
begin_operator
pick ball1 a l
1
0 0
2
0 4 0 2
0 1 0 1
1
end_operator
begin_operator
drop ball1 a l
1
0 0
2
0 4 2 0
0 1 1 0
1
end_operator
begin_operator
pick ball1 a r
1
0 0
2
0 4 0 3
0 2 0 1
1
end_operator
begin_operator
drop ball1 a r
1
0 0
2
0 4 3 0
0 2 1 0
1
end_operator
begin_operator
pick ball1 b l
1
0 1
2
0 4 1 2
0 1 0 1
1
end_operator
begin_operator
drop ball1 b l
1
0 1
2
0 4 2 1
0 1 1 0
1
end_operator
begin_operator
pick ball1 b r
1
0 1
2
0 4 1 3
0 2 0 1
1
end_operator
begin_operator
drop ball1 b r
1
0 1
2
0 4 3 1
0 2 1 0
1
end_operator
begin_operator
pick ball2 a l
1
0 0
2
0 5 0 2
0 1 0 1
1
end_operator
begin_operator
drop ball2 a l
1
0 0
2
0 5 2 0
0 1 1 0
1
end_operator
begin_operator
pick ball2 a r
1
0 0
2
0 5 0 3
0 2 0 1
1
end_operator
begin_operator
drop ball2 a r
1
0 0
2
0 5 3 0
0 2 1 0
1
end_operator
begin_operator
pick ball2 b l
1
0 1
2
0 5 1 2
0 1 0 1
1
end_operator
begin_operator
drop ball2 b l
1
0 1
2
0 5 2 1
0 1 1 0
1
end_operator
begin_operator
pick ball2 b r
1
0 1
2
0 5 1 3
0 2 0 1
1
end_operator
begin_operator
drop ball2 b r
1
0 1
2
0 5 3 1
0 2 1 0
1
end_operator
begin_operator
pick ball3 a l
1
0 0
2
0 6 0 2
0 1 0 1
1
end_operator
begin_operator
drop ball3 a l
1
0 0
2
0 6 2 0
0 1 1 0
1
end_operator
begin_operator
pick ball3 a r
1
0 0
2
0 6 0 3
0 2 0 1
1
end_operator
begin_operator
drop ball3 a r
1
0 0
2
0 6 3 0
0 2 1 0
1
end_operator
begin_operator
pick ball3 b l
1
0 1
2
0 6 1 2
0 1 0 1
1
end_operator
begin_operator
drop ball3 b l
1
0 1
2
0 6 2 1
0 1 1 0
1
end_operator
begin_operator
pick ball3 b r
1
0 1
2
0 6 1 3
0 2 0 1
1
end_operator
begin_operator
drop ball3 b r
1
0 1
2
0 6 3 1
0 2 1 0
1
end_operator
0
