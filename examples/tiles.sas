begin_version
3
end_version
begin_metric
0
end_metric
6
begin_variable
tile0
-1
6
c0-0
c1-0
c2-0
c0-1
c1-1
c2-1
end_variable
begin_variable
tile1
-1
6
c0-0
c1-0
c2-0
c0-1
c1-1
c2-1
end_variable
begin_variable
tile2
-1
6
c0-0
c1-0
c2-0
c0-1
c1-1
c2-1
end_variable
begin_variable
tile3
-1
6
c0-0
c1-0
c2-0
c0-1
c1-1
c2-1
end_variable
begin_variable
tile4
-1
6
c0-0
c1-0
c2-0
c0-1
c1-1
c2-1
end_variable
begin_variable
blank
-1
6
c0-0
c1-0
c2-0
c0-1
c1-1
c2-1
end_variable
0
begin_state
4
3
2
0
5
1
end_state
begin_goal
5
0 0
1 1
2 2
3 3
4 4
end_goal
70
begin_operator
move t0 c0-0 c0-1
0
2
0 0 0 3
0 5 3 0
1
end_operator
begin_operator
move t0 c0-0 c1-0
0
2
0 0 0 1
0 5 1 0
1
end_operator
begin_operator
move t0 c1-0 c1-1
0
2
0 0 1 4
0 5 4 1
1
end_operator
begin_operator
move t0 c1-0 c2-0
0
2
0 0 1 2
0 5 2 1
1
end_operator
begin_operator
move t0 c1-0 c0-0
0
2
0 0 1 0
0 5 0 1
1
end_operator
begin_operator
move t0 c2-0 c2-1
0
2
0 0 2 5
0 5 5 2
1
end_operator
begin_operator
move t0 c2-0 c1-0
0
2
0 0 2 1
0 5 1 2
1
end_operator
begin_operator
move t0 c0-1 c1-1
0
2
0 0 3 4
0 5 4 3
1
end_operator
begin_operator
move t0 c0-1 c0-0
0
2
0 0 3 0
0 5 0 3
1
end_operator
begin_operator
move t0 c1-1 c2-1
0
2
0 0 4 5
0 5 5 4
1
end_operator
begin_operator
move t0 c1-1 c1-0
0
2
0 0 4 1
0 5 1 4
1
end_operator
begin_operator
move t0 c1-1 c0-1
0
2
0 0 4 3
0 5 3 4
1
end_operator
begin_operator
move t0 c2-1 c2-0
0
2
0 0 5 2
0 5 2 5
1
end_operator
begin_operator
move t0 c2-1 c1-1
0
2
0 0 5 4
0 5 4 5
1
end_operator
begin_operator
move t1 c0-0 c0-1
0
2
0 1 0 3
0 5 3 0
1
end_operator
begin_operator
move t1 c0-0 c1-0
0
2
0 1 0 1
0 5 1 0
1
end_operator
begin_operator
move t1 c1-0 c1-1
0
2
0 1 1 4
0 5 4 1
1
end_operator
begin_operator
move t1 c1-0 c2-0
0
2
0 1 1 2
0 5 2 1
1
end_operator
begin_operator
move t1 c1-0 c0-0
0
2
0 1 1 0
0 5 0 1
1
end_operator
begin_operator
move t1 c2-0 c2-1
0
2
0 1 2 5
0 5 5 2
1
end_operator
begin_operator
move t1 c2-0 c1-0
0
2
0 1 2 1
0 5 1 2
1
end_operator
begin_operator
move t1 c0-1 c1-1
0
2
0 1 3 4
0 5 4 3
1
end_operator
begin_operator
move t1 c0-1 c0-0
0
2
0 1 3 0
0 5 0 3
1
end_operator
begin_operator
move t1 c1-1 c2-1
0
2
0 1 4 5
0 5 5 4
1
end_operator
begin_operator
move t1 c1-1 c1-0
0
2
0 1 4 1
0 5 1 4
1
end_operator
begin_operator
move t1 c1-1 c0-1
0
2
0 1 4 3
0 5 3 4
1
end_operator
begin_operator
move t1 c2-1 c2-0
0
2
0 1 5 2
0 5 2 5
1
end_operator
begin_operator
move t1 c2-1 c1-1
0
2
0 1 5 4
0 5 4 5
1
end_operator
begin_operator
move t2 c0-0 c0-1
0
2
0 2 0 3
0 5 3 0
1
end_operator
begin_operator
move t2 c0-0 c1-0
0
2
0 2 0 1
0 5 1 0
1
end_operator
begin_operator
move t2 c1-0 c1-1
0
2
0 2 1 4
0 5 4 1
1
end_operator
begin_operator
move t2 c1-0 c2-0
0
2
0 2 1 2
0 5 2 1
1
end_operator
begin_operator
move t2 c1-0 c0-0
0
2
0 2 1 0
0 5 0 1
1
end_operator
begin_operator
move t2 c2-0 c2-1
0
2
0 2 2 5
0 5 5 2
1
end_operator
begin_operator
move t2 c2-0 c1-0
0
2
0 2 2 1
0 5 1 2
1
end_operator
begin_operator
move t2 c0-1 c1-1
0
2
0 2 3 4
0 5 4 3
1
end_operator
begin_operator
move t2 c0-1 c0-0
0
2
0 2 3 0
0 5 0 3
1
end_operator
begin_operator
move t2 c1-1 c2-1
0
2
0 2 4 5
0 5 5 4
1
end_operator
begin_operator
move t2 c1-1 c1-0
0
2
0 2 4 1
0 5 1 4
1
end_operator
begin_operator
move t2 c1-1 c0-1
0
2
0 2 4 3
0 5 3 4
1
end_operator
begin_operator
move t2 c2-1 c2-0
0
2
0 2 5 2
0 5 2 5
1
end_operator
begin_operator
move t2 c2-1 c1-1
0
2
0 2 5 4
0 5 4 5
1
end_operator
begin_operator
move t3 c0-0 c0-1
0
2
0 3 0 3
0 5 3 0
1
end_operator
begin_operator
move t3 c0-0 c1-0
0
2
0 3 0 1
0 5 1 0
1
end_operator
begin_operator
move t3 c1-0 c1-1
0
2
0 3 1 4
0 5 4 1
1
end_operator
begin_operator
move t3 c1-0 c2-0
0
2
0 3 1 2
0 5 2 1
1
end_operator
begin_operator
move t3 c1-0 c0-0
0
2
0 3 1 0
0 5 0 1
1
end_operator
begin_operator
move t3 c2-0 c2-1
0
2
0 3 2 5
0 5 5 2
1
end_operator
begin_operator
move t3 c2-0 c1-0
0
2
0 3 2 1
0 5 1 2
1
end_operator
begin_operator
move t3 c0-1 c1-1
0
2
0 3 3 4
0 5 4 3
1
end_operator
begin_operator
move t3 c0-1 c0-0
0
2
0 3 3 0
0 5 0 3
1
end_operator
begin_operator
move t3 c1-1 c2-1
0
2
0 3 4 5
0 5 5 4
1
end_operator
begin_operator
move t3 c1-1 c1-0
0
2
0 3 4 1
0 5 1 4
1
end_operator
begin_operator
move t3 c1-1 c0-1
0
2
0 3 4 3
0 5 3 4
1
end_operator
begin_operator
move t3 c2-1 c2-0
0
2
0 3 5 2
0 5 2 5
1
end_operator
begin_operator
move t3 c2-1 c1-1
0
2
0 3 5 4
0 5 4 5
1
end_operator
begin_operator
move t4 c0-0 c0-1
0
2
0 4 0 3
0 5 3 0
1
end_operator
begin_operator
move t4 c0-0 c1-0
0
2
0 4 0 1
0 5 1 0
1
end_operator
begin_operator
move t4 c1-0 c1-1
0
2
0 4 1 4
0 5 4 1
1
end_operator
begin_operator
move t4 c1-0 c2-0
0
2
0 4 1 2
0 5 2 1
1
end_operator
begin_operator
move t4 c1-0 c0-0
0
2
0 4 1 0
0 5 0 1
1
end_operator
begin_operator
move t4 c2-0 c2-1
0
2
0 4 2 5
0 5 5 2
1
end_operator
begin_operator
move t4 c2-0 c1-0
0
2
0 4 2 1
0 5 1 2
1
end_operator
begin_operator
move t4 c0-1 c1-1
0
2
0 4 3 4
0 5 4 3
1
end_operator
begin_operator
move t4 c0-1 c0-0
0
2
0 4 3 0
0 5 0 3
1
end_operator
begin_operator
move t4 c1-1 c2-1
0
2
0 4 4 5
0 5 5 4
1
end_operator
begin_operator
move t4 c1-1 c1-0
0
2
0 4 4 1
0 5 1 4
1
end_operator
begin_operator
move t4 c1-1 c0-1
0
2
0 4 4 3
0 5 3 4
1
end_operator
begin_operator
move t4 c2-1 c2-0
0
2
0 4 5 2
0 5 2 5
1
end_operator
begin_operator
move t4 c2-1 c1-1
0
2
0 4 5 4
0 5 4 5
1
end_operator
0
