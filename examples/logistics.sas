begin_version
3
end_version
begin_metric
0
end_metric
6
begin_variable
truck0
-1
2
l0-0
l0-1
end_variable
begin_variable
truck1
-1
2
l1-0
l1-1
end_variable
begin_variable
plane0
-1
2
l0-0
l1-0
end_variable
begin_variable
pkg0
-1
7
l0-0
l0-1
l1-0
l1-1
in truck0
in truck1
in plane0
end_variable
begin_variable
pkg1
-1
7
l0-0
l0-1
l1-0
l1-1
in truck0
in truck1
in plane0
end_variable
begin_variable
pkg2
-1
7
l0-0
l0-1
l1-0
l1-1
in truck0
in truck1
in plane0
end_variable
0
begin_state
0
0
1
0
3
3
end_state
begin_goal
3
3 1
4 1
5 0
end_goal
42
begin_operator
drive 0 0 1
0
1
0 0 0 1
1
end_operator
begin_operator
drive 0 1 0
0
1
0 0 1 0
1
end_operator
begin_operator
drive 1 0 1
0
1
0 1 0 1
1
end_operator
begin_operator
drive 1 1 0
0
1
0 1 1 0
1
end_operator
begin_operator
fly 0 0 1
0
1
0 2 0 1
1
end_operator
begin_operator
fly 0 1 0
0
1
0 2 1 0
1
end_operator
begin_operator
load-truck p0 l0-0
1
0 0
1
0 3 0 4
1
end_operator
begin_operator
unload-truck p0 l0-0
1
0 0
1
0 3 4 0
1
end_operator
begin_operator
load-plane p0 0 0
1
2 0
1
0 3 0 6
1
end_operator
begin_operator
unload-plane p0 0 0
1
2 0
1
0 3 6 0
1
end_operator
begin_operator
load-truck p0 l0-1
1
0 1
1
0 3 1 4
1
end_operator
begin_operator
unload-truck p0 l0-1
1
0 1
1
0 3 4 1
1
end_operator
begin_operator
load-truck p0 l1-0
1
1 0
1
0 3 2 5
1
end_operator
begin_operator
unload-truck p0 l1-0
1
1 0
1
0 3 5 2
1
end_operator
begin_operator
load-plane p0 0 1
1
2 1
1
0 3 2 6
1
end_operator
begin_operator
unload-plane p0 0 1
1
2 1
1
0 3 6 2
1
end_operator
begin_operator
load-truck p0 l1-1
1
1 1
1
0 3 3 5
1
end_operator
begin_operator
unload-truck p0 l1-1
1
1 1
1
0 3 5 3
1
end_operator
begin_operator
load-truck p1 l0-0
1
0 0
1
0 4 0 4
1
end_operator
begin_operator
unload-truck p1 l0-0
1
0 0
1
0 4 4 0
1
end_operator
begin_operator
load-plane p1 0 0
1
2 0
1
0 4 0 6
1
end_operator
begin_operator
unload-plane p1 0 0
1
2 0
1
0 4 6 0
1
end_operator
begin_operator
load-truck p1 l0-1
1
0 1
1
0 4 1 4
1
end_operator
begin_operator
unload-truck p1 l0-1
1
0 1
1
0 4 4 1
1
end_operator
begin_operator
load-truck p1 l1-0
1
1 0
1
0 4 2 5
1
end_operator
begin_operator
unload-truck p1 l1-0
1
1 0
1
0 4 5 2
1
end_operator
begin_operator
load-plane p1 0 1
1
2 1
1
0 4 2 6
1
end_operator
begin_operator
unload-plane p1 0 1
1
2 1
1
0 4 6 2
1
end_operator
begin_operator
load-truck p1 l1-1
1
1 1
1
0 4 3 5
1
end_operator
begin_operator
unload-truck p1 l1-1
1
1 1
1
0 4 5 3
1
end_operator
begin_operator
load-truck p2 l0-0
1
0 0
1
0 5 0 4
1
end_operator
begin_operator
unload-truck p2 l0-0
1
0 0
1
0 5 4 0
1
end_operator
begin_operator
load-plane p2 0 0
1
2 0
1
0 5 0 6
1
end_operator
begin_operator
unload-plane p2 0 0
1
2 0
1
0 5 6 0
1
end_operator
begin_operator
load-truck p2 l0-1
1
0 1
1
0 5 1 4
1
end_operator
begin_operator
unload-truck p2 l0-1
1
0 1
1
0 5 4 1
1
end_operator
begin_operator
load-truck p2 l1-0
1
1 0
1
0 5 2 5
1
end_operator
begin_operator
unload-truck p2 l1-0
1
1 0
1
0 5 5 2
1
end_operator
begin_operator
load-plane p2 0 1
1
2 1
1
0 5 2 6
1
end_operator
begin_operator
unload-plane p2 0 1
1
2 1
1
0 5 6 2
1
end_operator
begin_operator
load-truck p2 l1-1
1
1 1
1
0 5 3 5
1
end_operator
begin_operator
unload-truck p2 l1-1
1
1 1
1
0 5 5 3
1
end_operator
0
