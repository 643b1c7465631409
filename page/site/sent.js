// The calls of this browser for this user's desk, with their answers.

import {byId, give, made, row, table} from './dom.js';
import {local, today} from './chart.js';

const SHOWN = 200, WEEK = 7 * 24 * 3600 * 1000;
// How many letters a browser keeps of a site: 5 MiB.
const ROOM = 5 * 2 ** 20;

export class Sent {
    constructor(city) {
        Object.assign(this, city);
        byId('sent-save').addEventListener('click', () => this.save());
        byId('sent-forget').addEventListener('click', () => this.forget());
    }

    show() {
        const rows = this.doors.kept().slice(-SHOWN).reverse().map(call => this.row(call)), heads = ['When', 'What', 'Key', 'Amount and party', 'Answer', ''];
        byId('sent-room').textContent = this.room();
        byId('sent-table').replaceChildren(rows.length ? table('Calls of this browser', heads, rows, 'cards') : 'Nothing was sent from this browser.');
    }

    /** How much of the browser's room the calls of this site take. */
    room() {
        const taken = Object.entries(localStorage).reduce((all, [id, text]) => all + id.length + text.length, 0);
        const kept = this.doors.kept().length, part = Math.ceil(100 * taken / ROOM);
        const shown = kept > SHOWN ? ` The last ${SHOWN} are shown.` : '';
        return `${kept} calls are kept. ${part} percent of the browser’s room is taken.${shown}` +
            (part < 70 ? '' : ' Save them as files and forget the old ones, before it is full.');
    }

    row(call) {
        const {title} = this.tables.calls[call.call], when = local(call.made), about = call.about ?? this.calls.about(JSON.parse(call.text));
        if (call.reply) return row([when, title, call.key, about, this.words.of(call.reply, call.call).text, call.reply.ok ? this.papers.link(call, call.reply) : '']);
        const giveUp = made('button', {type: 'button', className: 'small', onclick: () => this.giveUp(call)}, 'Give up');
        return row([when, title, call.key, about, 'Not answered yet', giveUp]);
    }

    /** The answered calls as a file of calls and one of replies, line by line. */
    save() {
        const answered = this.doors.kept().filter(call => call.reply), name = `desk-${this.me.desk}-${today()}`;
        give(name + '.jsonl', answered.map(call => call.text + '\n').join(''));
        give(name + '.replies', answered.map(call => JSON.stringify(call.reply) + '\n').join(''));
    }

    forget() {
        const old = this.doors.kept().filter(call => call.reply && Date.now() - Date.parse(call.made) > WEEK);
        this.doors.forget(old);
        this.show();
        byId('sent-said').textContent = `${old.length} answered calls forgotten that are older than a week.`;
    }

    giveUp(call) {
        const asked = `The program may have taken ${call.key}. Give it up only where it can never be answered, and look first whether it was taken.`;
        if (!confirm(asked)) return;
        this.doors.forget([call]);
        this.show();
    }
}
