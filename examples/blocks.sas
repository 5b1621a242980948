begin_version
3
end_version
begin_metric
0
end_metric
9
begin_variable
hand
-1
2
empty
full
end_variable
begin_variable
pos-b0
-1
5
ontable
holding
on b1
on b2
on b3
end_variable
begin_variable
pos-b1
-1
5
ontable
holding
on b0
on b2
on b3
end_variable
begin_variable
pos-b2
-1
5
ontable
holding
on b0
on b1
on b3
end_variable
begin_variable
pos-b3
-1
5
ontable
holding
on b0
on b1
on b2
end_variable
begin_variable
clear-b0
-1
2
no
yes
end_variable
begin_variable
clear-b1
-1
2
no
yes
end_variable
begin_variable
clear-b2
-1
2
no
yes
end_variable
begin_variable
clear-b3
-1
2
no
yes
end_variable
0
begin_state
0
0
0
3
4
1
0
0
1
end_state
begin_goal
2
2 2
3 3
end_goal
32
begin_operator
pick-up b0
0
3
0 0 0 1
0 1 0 1
0 5 1 0
1
end_operator
begin_operator
put-down b0
0
3
0 0 1 0
0 1 1 0
0 5 -1 1
1
end_operator
begin_operator
stack b0 b1
0
4
0 0 1 0
0 1 1 2
0 5 -1 1
0 6 1 0
1
end_operator
begin_operator
unstack b0 b1
0
4
0 0 0 1
0 1 2 1
0 5 1 0
0 6 -1 1
1
end_operator
begin_operator
stack b0 b2
0
4
0 0 1 0
0 1 1 3
0 5 -1 1
0 7 1 0
1
end_operator
begin_operator
unstack b0 b2
0
4
0 0 0 1
0 1 3 1
0 5 1 0
0 7 -1 1
1
end_operator
begin_operator
stack b0 b3
0
4
0 0 1 0
0 1 1 4
0 5 -1 1
0 8 1 0
1
end_operator
begin_operator
unstack b0 b3
0
4
0 0 0 1
0 1 4 1
0 5 1 0
0 8 -1 1
1
end_operator
begin_operator
pick-up b1
0
3
0 0 0 1
0 2 0 1
0 6 1 0
1
end_operator
begin_operator
put-down b1
0
3
0 0 1 0
0 2 1 0
0 6 -1 1
1
end_operator
begin_operator
stack b1 b0
0
4
0 0 1 0
0 2 1 2
0 6 -1 1
0 5 1 0
1
end_operator
begin_operator
unstack b1 b0
0
4
0 0 0 1
0 2 2 1
0 6 1 0
0 5 -1 1
1
end_operator
begin_operator
stack b1 b2
0
4
0 0 1 0
0 2 1 3
0 6 -1 1
0 7 1 0
1
end_operator
begin_operator
unstack b1 b2
0
4
0 0 0 1
0 2 3 1
0 6 1 0
0 7 -1 1
1
end_operator
begin_operator
stack b1 b3
0
4
0 0 1 0
0 2 1 4
0 6 -1 1
0 8 1 0
1
end_operator
begin_operator
unstack b1 b3
0
4
0 0 0 1
0 2 4 1
0 6 1 0
0 8 -1 1
1
end_operator
begin_operator
pick-up b2
0
3
0 0 0 1
0 3 0 1
0 7 1 0
1
end_operator
begin_operator
put-down b2
0
3
0 0 1 0
0 3 1 0
0 7 -1 1
1
end_operator
begin_operator
stack b2 b0
0
4
0 0 1 0
0 3 1 2
0 7 -1 1
0 5 1 0
1
end_operator
begin_operator
unstack b2 b0
0
4
0 0 0 1
0 3 2 1
0 7 1 0
0 5 -1 1
1
end_operator
begin_operator
stack b2 b1
0
4
0 0 1 0
0 3 1 3
0 7 -1 1
0 6 1 0
1
end_operator
begin_operator
unstack b2 b1
0
4
0 0 0 1
0 3 3 1
0 7 1 0
0 6 -1 1
1
end_operator
begin_operator
stack b2 b3
0
4
0 0 1 0
0 3 1 4
0 7 -1 1
0 8 1 0
1
end_operator
begin_operator
unstack b2 b3
0
4
0 0 0 1
0 3 4 1
0 7 1 0
0 8 -1 1
1
end_operator
begin_operator
pick-up b3
0
3
0 0 0 1
0 4 0 1
0 8 1 0
1
end_operator
begin_operator
put-down b3
0
3
0 0 1 0
0 4 1 0
0 8 -1 1
1
end_operator
begin_operator
stack b3 b0
0
4
0 0 1 0
0 4 1 2
0 8 -1 1
0 5 1 0
1
end_operator
begin_operator
unstack b3 b0
0
4
0 0 0 1
0 4 2 1
0 8 1 0
0 5 -1 1
1
end_operator
begin_operator
stack b3 b1
0
4
0 0 1 0
0 4 1 3
0 8 -1 1
0 6 1 0
1
end_operator
begin_operator
unstack b3 b1
0
4
0 0 0 1
0 4 3 1
0 8 1 0
0 6 -1 1
1
end_operator
begin_operator
stack b3 b2
0
4
0 0 1 0
0 4 1 4
0 8 -1 1
0 7 1 0
1
end_operator
begin_operator
unstack b3 b2
0
4
0 0 0 1
0 4 4 1
0 8 1 0
0 7 -1 1
1
end_operator
0
