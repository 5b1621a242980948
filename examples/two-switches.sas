begin_version
3
end_version
begin_metric
0
end_metric
2
begin_variable
a
-1
2
off
on
end_variable
begin_variable
b
-1
2
off
on
end_variable
0
begin_state
0
0
end_state
begin_goal
2
0 1
1 1
end_goal
2
begin_operator
a-on
0
1
0 0 0 1
1
end_operator
begin_operator
b-on
0
1
0 1 0 1
1
end_operator
0
