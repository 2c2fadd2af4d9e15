// Chooses one of four counters for a request, by the serial numbers that it names: two requests for a bond come to the same counter. A request for bonds of several counters is refused.
function part_of(serial) {
    return Number(serial.replace(/[^0-9]/g, '').slice(-2)) % 4;
}

function to_one(r, parts) {
    if (parts.length === 0 || parts.some((part) => part !== parts[0])) {
        r.return(400, '{"forbidden":"parts"}');
        return;
    }
    r.internalRedirect(`@part${parts[0]}`);
}

function by_serial(r) {
    const said = JSON.parse(r.requestText);
    to_one(r, (said.serials || said.bonds.map((bond) => bond.serial)).map(part_of));
}

// The control of the test: by the desk, so that two desks may bring one bond to two counters.
function by_desk(r) {
    to_one(r, [JSON.parse(r.requestText).desk % 4]);
}

export default { by_serial, by_desk };
