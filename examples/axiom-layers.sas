begin_version
3
end_version
begin_metric
0
end_metric
4
begin_variable
x
-1
2
x0
x1
end_variable
begin_variable
d1
0
2
no
yes
end_variable
begin_variable
d2
0
2
no
yes
end_variable
begin_variable
d3
1
2
no
yes
end_variable
0
begin_state
0
0
0
0
end_state
begin_goal
1
2 1
end_goal
1
begin_operator
go
0
1
0 0 0 1
1
end_operator
3
begin_rule
1
1 1
2 0 1
end_rule
begin_rule
1
0 1
1 0 1
end_rule
begin_rule
1
2 0
3 0 1
end_rule
