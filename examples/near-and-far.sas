begin_version
3
end_version
begin_metric
1
end_metric
1
begin_variable
x
-1
3
x0
x1
x2
end_variable
0
begin_state
0
end_state
begin_goal
1
0 2
end_goal
3
begin_operator
near
0
1
0 0 0 1
1
end_operator
begin_operator
far
0
1
0 0 1 2
1000000000000
end_operator
begin_operator
jump
0
1
0 0 0 2
1000000000000
end_operator
0
