// Lets a user change things for its own desk alone: imported by nginx.conf from where the package
// installs both.
//
// The program takes the desk of a call as given. Of two fields of one name both JSON.parse and the program take the last, and what
// JSON.parse doesn't read goes to no door. A call without a desk can change nothing: it is a look, or in no form.

function said(r, code, body) {
    r.headersOut['Content-Type'] = 'application/json';
    r.return(code, JSON.stringify(body));
}

// Whether a page of another site asks. A browser that was told a password sends it with whatever any page posts, and says in these
// fields whose page it is. Programs send neither.
function isForeign(fields) {
    var origin = fields['Origin'], site = fields['Sec-Fetch-Site'];
    return origin !== undefined && origin !== 'https://' + fields['Host'] || site !== undefined && site !== 'same-origin';
}

// Whether a page that another user opened in this browser asks: it says for whom it was opened. Programs don't.
function isOfAnother(r) {
    var user = r.headersIn['Cityfund-User'];
    return user !== undefined && user !== encodeURIComponent(r.variables.remote_user);
}

// Whether no object of a body has more than 32 names, and none stands more than 16 deep: a call's
// have at most 12, and stand 3 deep. njs finds an object's names by a hash without a seed, so
// thousands of names of one hash take it seconds to read: they are counted before.
function isNarrow(body) {
    var names = [], depth = 0, isText = false;
    for (var at = 0, size = body.length; at < size; at++) {
        var byte = body[at];
        if (isText) {
            if (byte === 0x5C) at++;
            else if (byte === 0x22) isText = false;
        }
        else if (byte === 0x22) isText = true;
        else if (byte === 0x3A && ++names[depth] > 32) return false;
        else if (byte === 0x7B) {
            if (++depth > 16) return false;
            names[depth] = 0;
        }
        else if (byte === 0x7D) depth--;
    }
    return true;
}

function post(r) {
    // What isn't a POST is no call, and a door says so.
    if (r.method !== 'POST') {
        return r.internalRedirect('@doors');
    }
    if (isForeign(r.headersIn)) {
        return said(r, 403, {proxy: 'a foreign page'});
    }
    if (isOfAnother(r)) {
        return said(r, 403, {proxy: 'not this user'});
    }
    var text, call;
    try {
        text = r.requestText;
    } catch (fault) {
        // It came in so many chunks that nginx keeps it in a file.
        return said(r, 413, {form: 'long'});
    }
    // A short body can't have many names.
    if (text.length > 4096 && !isNarrow(r.requestBuffer)) {
        return said(r, 400, {proxy: 'no call has this form'});
    }
    try {
        call = JSON.parse(text);
    } catch (fault) {
        return said(r, 400, {form: 'json'});
    }
    if (call !== null && call.desk !== undefined && call.desk !== Number(r.variables.cityfund_desk)) {
        return said(r, 403, {proxy: 'not your desk'});
    }
    if (call !== null && call.desk !== undefined) {
        return sent(r, call);
    }
    r.internalRedirect('@doors');
}

// A statement is made for this server's own pages, and for programs.
function asked(r) {
    if (isForeign(r.headersIn)) {
        return said(r, 403, {proxy: 'a foreign page'});
    }
    r.internalRedirect('@asked');
}

// Who asks, and for which desk: 0 where for none.
function whoami(r) {
    said(r, 200, {user: r.variables.remote_user, desk: Number(r.variables.cityfund_desk) || 0});
}

// ---- who entered what (docs/OPERATE.md): the line that nginx writes of a change, once it has answered it

// A line for a change whose answer doesn't come: a door may have taken it. What is answered gets
// another line, or none.
function sent(r, call) {
    r.variables.cityfund_entered = JSON.stringify({
        time: r.variables.time_iso8601,
        user: r.variables.remote_user,
        address: r.variables.remote_addr,
        desk: call.desk,
        key: typeof call.key === 'string' && call.key.length <= 40 ? call.key : '',
        place: 0,
        body: digest(r.requestBuffer)
    });
    r.internalRedirect('@entry');
}

function digest(bytes) {
    return require('crypto').createHash('sha256').update(bytes).digest('hex');
}

// A call as the journal has it, however its caller wrote it: names in rising order, no spaces, and
// nothing that an entry doesn't keep.
function plain(value) {
    if (Array.isArray(value)) {
        return '[' + value.map(plain).join(',') + ']';
    }
    if (value === null || typeof value !== 'object') {
        return JSON.stringify(value);
    }
    return '{' + Object.keys(value).sort().map(name => JSON.stringify(name) + ':' + plain(value[name])).join(',') + '}';
}

// The line of a change that was answered so: empty where it wasn't accepted.
function lineOf(r, answer) {
    var reply = JSON.parse(answer);
    if (reply.ok === undefined) {
        return '';
    }
    var line = JSON.parse(r.variables.cityfund_entered), call = JSON.parse(r.requestText);
    delete call.after;
    if (call.back === false) {
        delete call.back;
    }
    line.time = r.variables.time_iso8601;
    line.place = reply.at;
    if (reply.was !== undefined) {
        line.place = reply.was;
        line.repeat = true;
    }
    line.call = digest(plain(call));
    return JSON.stringify(line);
}

// The answer goes on as it came. One to a change is short; each request has this text of its own.
var answer = '';

function entered(r, data, flags) {
    if (answer.length < 4096) {
        answer += data;
    }
    if (flags.last) {
        try {
            r.variables.cityfund_entered = lineOf(r, answer);
        } catch (fault) {
            r.error(`an answer that can't be read: ${fault}`);
        }
    }
    r.sendBuffer(data, flags);
}

export default {post, asked, whoami, entered};
