let deadband = 8;
let tremor_filter = false;
let tremor_window = 10;
let forward_limit = 80;
let reverse_limit = 40;
let turn_limit = 45;
let ramp_up = 60;
let ramp_down = 90;
let sip_soft = 20;
let sip_hard = 60;
let puff_soft = 20;
let puff_hard = 60;
let dwell = 500;
let latched = false;
let reversed = false;
let curve = [0, 10, 20, 30, 40, 50, 60, 70, 80, 90, 100];

let limit = fn(value, most) { if (value > most) { most } else { value } };
let steady = fn(now, before) { if (tremor_filter) { before + (now - before) * 10 / tremor_window } else { now } };
let drive = fn(x, before) {
    let wish = steady(x, before);
    if (wish < deadband) { 0 } else { limit(curve[wish / 10], forward_limit) }
};
let breath = fn(pressure) {
    if (pressure > puff_hard) { forward_limit } else {
        if (pressure > puff_soft) { turn_limit } else { if (pressure < -sip_hard) { -reverse_limit } else { if (pressure < -sip_soft) { -turn_limit } else { 0 } } }
    }
};
let stops = fn(quiet) { if (latched) { false } else { quiet > dwell } };
