let top = 40;
let limit = fn(speed) { if (speed > top) { top } else { speed } };
limit(55);
