// A recursion that computes, seven calls deep, in code that node's compiler makes while it runs. With the word wait it waits.
"use strict";

function turn(depth) {
    if (depth > 0) {
        return turn(depth - 1) + 1;
    }
    let sum = 0;
    for (;;) {
        sum = (sum * 31 + 7) % 1000003;
    }
}

if (process.argv[2] === "wait") {
    setTimeout(() => 0, 1e9);
} else {
    turn(6);
}
