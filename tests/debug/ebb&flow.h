! What falls, and what nobody asks for.
[ Fall by i;
    for (i = 0: i < by: i++)
        height--;
    return height;
];

[ Rise;
    height++;
];
