begin_version
3
end_version
begin_metric
0
end_metric
5
begin_variable
disc0
-1
3
peg0
peg1
peg2
end_variable
begin_variable
disc1
-1
3
peg0
peg1
peg2
end_variable
begin_variable
disc2
-1
3
peg0
peg1
peg2
end_variable
begin_variable
disc3
-1
3
peg0
peg1
peg2
end_variable
begin_variable
disc4
-1
3
peg0
peg1
peg2
end_variable
0
begin_state
0
0
0
0
0
end_state
begin_goal
5
0 2
1 2
2 2
3 2
4 2
end_goal
30
begin_operator
move d0 0 1
0
1
0 0 0 1
1
end_operator
begin_operator
move d0 0 2
0
1
0 0 0 2
1
end_operator
begin_operator
move d0 1 0
0
1
0 0 1 0
1
end_operator
begin_operator
move d0 1 2
0
1
0 0 1 2
1
end_operator
begin_operator
move d0 2 0
0
1
0 0 2 0
1
end_operator
begin_operator
move d0 2 1
0
1
0 0 2 1
1
end_operator
begin_operator
move d1 0 1
1
0 2
1
0 1 0 1
1
end_operator
begin_operator
move d1 0 2
1
0 1
1
0 1 0 2
1
end_operator
begin_operator
move d1 1 0
1
0 2
1
0 1 1 0
1
end_operator
begin_operator
move d1 1 2
1
0 0
1
0 1 1 2
1
end_operator
begin_operator
move d1 2 0
1
0 1
1
0 1 2 0
1
end_operator
begin_operator
move d1 2 1
1
0 0
1
0 1 2 1
1
end_operator
begin_operator
move d2 0 1
2
0 2
1 2
1
0 2 0 1
1
end_operator
begin_operator
move d2 0 2
2
0 1
1 1
1
0 2 0 2
1
end_operator
begin_operator
move d2 1 0
2
0 2
1 2
1
0 2 1 0
1
end_operator
begin_operator
move d2 1 2
2
0 0
1 0
1
0 2 1 2
1
end_operator
begin_operator
move d2 2 0
2
0 1
1 1
1
0 2 2 0
1
end_operator
begin_operator
move d2 2 1
2
0 0
1 0
1
0 2 2 1
1
end_operator
begin_operator
move d3 0 1
3
0 2
1 2
2 2
1
0 3 0 1
1
end_operator
begin_operator
move d3 0 2
3
0 1
1 1
2 1
1
0 3 0 2
1
end_operator
begin_operator
move d3 1 0
3
0 2
1 2
2 2
1
0 3 1 0
1
end_operator
begin_operator
move d3 1 2
3
0 0
1 0
2 0
1
0 3 1 2
1
end_operator
begin_operator
move d3 2 0
3
0 1
1 1
2 1
1
0 3 2 0
1
end_operator
begin_operator
move d3 2 1
3
0 0
1 0
2 0
1
0 3 2 1
1
end_operator
begin_operator
move d4 0 1
4
0 2
1 2
2 2
3 2
1
0 4 0 1
1
end_operator
begin_operator
move d4 0 2
4
0 1
1 1
2 1
3 1
1
0 4 0 2
1
end_operator
begin_operator
move d4 1 0
4
0 2
1 2
2 2
3 2
1
0 4 1 0
1
end_operator
begin_operator
move d4 1 2
4
0 0
1 0
2 0
3 0
1
0 4 1 2
1
end_operator
begin_operator
move d4 2 0
4
0 1
1 1
2 1
3 1
1
0 4 2 0
1
end_operator
begin_operator
move d4 2 1
4
0 0
1 0
2 0
3 0
1
0 4 2 1
1
end_operator
0
