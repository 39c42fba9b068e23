function mpc = ieee14
% IEEE 14-bus test system: its 14 buses and 20 branches, in the published numbering.
% A share rests on who is joined with whom alone, so the types are all 1 and the electrical columns 0.
mpc.version = '2';
mpc.baseMVA = 100;

%	bus_i	type	Pd	Qd	Gs	Bs	area	Vm	Va	baseKV	zone	Vmax	Vmin
mpc.bus = [
	1	1	0	0	0	0	0	0	0	0	0	0	0;
	2	1	0	0	0	0	0	0	0	0	0	0	0;
	3	1	0	0	0	0	0	0	0	0	0	0	0;
	4	1	0	0	0	0	0	0	0	0	0	0	0;
	5	1	0	0	0	0	0	0	0	0	0	0	0;
	6	1	0	0	0	0	0	0	0	0	0	0	0;
	7	1	0	0	0	0	0	0	0	0	0	0	0;
	8	1	0	0	0	0	0	0	0	0	0	0	0;
	9	1	0	0	0	0	0	0	0	0	0	0	0;
	10	1	0	0	0	0	0	0	0	0	0	0	0;
	11	1	0	0	0	0	0	0	0	0	0	0	0;
	12	1	0	0	0	0	0	0	0	0	0	0	0;
	13	1	0	0	0	0	0	0	0	0	0	0	0;
	14	1	0	0	0	0	0	0	0	0	0	0	0;
];

%	fbus	tbus	r	x	b	rateA	rateB	rateC	ratio	angle	status	angmin	angmax
mpc.branch = [
	1	2	0	0	0	0	0	0	0	0	1	-360	360;
	1	5	0	0	0	0	0	0	0	0	1	-360	360;
	2	3	0	0	0	0	0	0	0	0	1	-360	360;
	2	4	0	0	0	0	0	0	0	0	1	-360	360;
	2	5	0	0	0	0	0	0	0	0	1	-360	360;
	3	4	0	0	0	0	0	0	0	0	1	-360	360;
	4	5	0	0	0	0	0	0	0	0	1	-360	360;
	4	7	0	0	0	0	0	0	0	0	1	-360	360;
	4	9	0	0	0	0	0	0	0	0	1	-360	360;
	5	6	0	0	0	0	0	0	0	0	1	-360	360;
	6	11	0	0	0	0	0	0	0	0	1	-360	360;
	6	12	0	0	0	0	0	0	0	0	1	-360	360;
	6	13	0	0	0	0	0	0	0	0	1	-360	360;
	7	8	0	0	0	0	0	0	0	0	1	-360	360;
	7	9	0	0	0	0	0	0	0	0	1	-360	360;
	9	10	0	0	0	0	0	0	0	0	1	-360	360;
	9	14	0	0	0	0	0	0	0	0	1	-360	360;
	10	11	0	0	0	0	0	0	0	0	1	-360	360;
	12	13	0	0	0	0	0	0	0	0	1	-360	360;
	13	14	0	0	0	0	0	0	0	0	1	-360	360;
];
