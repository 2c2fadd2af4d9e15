// Keeps a reply for the log of requests, and passes it on as it is.
function keep(r, data, flags) {
    if (r.method === 'POST') {
        r.variables.counter_reply = (r.variables.counter_reply || '') + data;
    }
    r.sendBuffer(data, flags);
}

export default { keep };
