let deadband = 100;
let tremor_filter = false;
let tremor_window = 10;
let forward_limit = 50;
let reverse_limit = 25;
let turn_limit = 25;
let ramp_up = 30;
let ramp_down = 70;
let sip_soft = 15;
let sip_hard = 45;
let puff_soft = 15;
let puff_hard = 45;
let dwell = 800;
let latched = true;
let reversed = false;
let curve = [0, 0, 0, 0, 0, 0, 0, 0, 0, 0, 0];

let limit = fn(value, most) { if (value > most) { most } else { value } };
let steady = fn(now, before) { if (tremor_filter) { before + (now - before) * 10 / tremor_window } else { now } };
let drive = fn(x, before) {
    let wish = steady(x, before);
    if (wish < deadband) { 0 } else { limit(curve[wish / 10], forward_limit) }
};
let breath = fn(pressure) {
    if (pressure > puff_hard) { forward_limit } else {
        if (pressure > puff_soft) { turn_limit } else { if (pressure < -sip_hard) { -reverse_limit } else { if (pressure < -sip_soft) { -turn_limit } else { 0 } } }
    }
};
let stops = fn(quiet) { if (latched) { false } else { quiet > dwell } };
