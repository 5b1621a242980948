begin_version
3
end_version
begin_metric
0
end_metric
2
begin_variable
pos
-1
3
p0
p1
p2
end_variable
begin_variable
done
0
2
no
yes
end_variable
0
begin_state
0
0
end_state
begin_goal
1
1 1
end_goal
2
begin_operator
m1
0
1
0 0 0 1
1
end_operator
begin_operator
m2
0
1
0 0 1 2
1
end_operator
2
begin_rule
1
0 1
1 0 1
end_rule
begin_rule
1
0 2
1 0 1
end_rule
