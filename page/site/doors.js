// The way to the doors. A call is written down with its key before it is sent, and the same bytes
// are sent until an answer comes: so it is taken once. It is kept for the user and the desk that it
// was entered for, and only they send it.

const ANSWERED = [200, 400, 409, 413];
const wait = seconds => new Promise(go => setTimeout(go, seconds * 1000));

export class Doors extends EventTarget {
    constructor(me) {
        super();
        this.me = me;
        this.mark = `call ${encodeURIComponent(me.user)} ${me.desk} `;
        this.sending = false;
        this.latest = '';
        this.entered = 0;
        this.recall();
        addEventListener('storage', event => {
            if (event.key !== null && !event.key.startsWith(this.mark)) return;
            if (event.key === null) this.recall();
            else this.remember(event.key, event.newValue);
            this.changed();
        });
    }

    /** Reads all calls of this user's desk anew. */
    recall() {
        this.calls = new Map();
        for (const id of Object.keys(localStorage)) if (id.startsWith(this.mark)) this.remember(id, localStorage.getItem(id));
    }

    /** Takes a call as the browser has it: of thousands none is read twice. */
    remember(id, text) {
        if (text === null) this.calls.delete(id);
        else this.calls.set(id, {id, ...JSON.parse(text)});
        this.ordered = undefined;
    }

    changed(more = {}) {
        this.dispatchEvent(new CustomEvent('changed', {detail: more}));
    }

    get seen() {
        return Number(localStorage.getItem('seen') || 0);
    }

    /** Asks the doors. The proxy refuses it where this browser has become another user meanwhile. */
    async ask(text) {
        const headers = {'Content-Type': 'application/json', 'Cityfund-User': encodeURIComponent(this.me.user)};
        const answer = await fetch('/calls', {method: 'POST', body: text, headers, cache: 'no-store'});
        const reply = await answer.text();
        if (!ANSWERED.includes(answer.status)) throw Object.assign(new Error(reasonOf(answer.status, reply)), {status: answer.status, reply});
        const said = JSON.parse(reply);
        if (said.at > this.seen) localStorage.setItem('seen', said.at);
        return said;
    }

    /** The answer of a look. Where the proxy is busy or no door is there it is asked again. */
    async look(fields) {
        for (let pause = 0.5; ; pause *= 2) {
            try {
                return await this.ask(JSON.stringify({...fields, after: this.seen}));
            } catch (fault) {
                if (pause > 4 || fault.status === 403) throw fault;
                await wait(pause);
            }
        }
    }

    /** Calls of this user's desk in this browser, in the order in which they were entered. */
    kept() {
        this.ordered ??= [...this.calls.values()].sort((one, other) => one.id < other.id ? -1 : 1);
        return this.ordered;
    }

    waiting() {
        return this.kept().filter(call => !call.reply);
    }

    /** Writes a call down, and sends it. Throws where the browser has no room to write it down: then nothing was sent. */
    enter(call) {
        const made = new Date().toISOString();
        this.store({...call, id: this.newId(made), made});
        this.sendAll();
    }

    /**
     * A name for a call that sorts behind those of all that this page entered before, also within a
     * millisecond, or after the clock was set back. Its last part tells it from another page's.
     */
    newId(now) {
        if (now > this.latest) this.latest = now;
        const count = String(++this.entered).padStart(6, '0'), some = crypto.getRandomValues(new Uint32Array(1))[0].toString(36);
        return `${this.mark}${this.latest} ${count} ${some}`;
    }

    store({id, ...call}) {
        const text = JSON.stringify(call);
        localStorage.setItem(id, text);
        this.remember(id, text);
        this.changed();
    }

    forget(calls) {
        for (const {id} of calls) {
            localStorage.removeItem(id);
            this.remember(id, null);
        }
        this.changed();
    }

    /** The first call that waits, as the browser has it now: another page may have sent it. */
    next() {
        for (const {id} of this.waiting()) {
            this.remember(id, localStorage.getItem(id));
            const call = this.calls.get(id);
            if (call && !call.reply) return call;
        }
        return undefined;
    }

    /** Sends what isn't answered yet, one after another; of several pages of a browser one at a time. */
    async sendAll() {
        if (this.sending) return;
        this.sending = true;
        await navigator.locks.request(this.mark, async () => {
            for (let next; (next = this.next()); ) await this.send(next);
        });
        this.sending = false;
        this.changed();
    }

    /** Keeps the answer; where the browser has no room for it the call is let go, since it is answered. */
    answer(call, reply) {
        try {
            this.store({...call, reply});
        } catch {
            this.forget([call]);
        }
    }

    async send(call) {
        this.changed({call});
        for (let pause = 1; ; pause = Math.min(pause * 2, 60)) {
            try {
                const reply = await this.ask(call.text);
                this.answer(call, reply);
                this.changed({call, reply});
                return;
            } catch (fault) {
                this.changed({call, fault, pause});
                await wait(pause);
            }
        }
    }
}

/** Why no answer came, by its status. */
export function reasonOf(status, reply) {
    if (status === 403 && reply.includes('not this user')) return 'another user has signed in in this browser: load the page again';
    if (status === 403) return 'the proxy doesn’t let this user speak for this desk';
    if (status === 401) return 'the password is asked for';
    if (status === 500) return 'the disk of the program failed';
    if (status === 502 || status === 503) return 'the program isn’t there';
    if (status === 429) return 'too much is asked at once';
    return `status ${status}`;
}
