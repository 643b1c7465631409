"""A clerk at the page: fills forms in as one does, field by field, and reads what it says."""
import json

from browser import PATIENCE


class Clerk:
    def __init__(self, page, url):
        self.page, self.url = page, url
        page.go(url + "/desk/")
        self.begin()

    def begin(self):
        """Waits until the page is there."""
        self.page.until("document.readyState === 'complete' && document.body?.dataset.ready === 'yes' && !window.clerk")
        self.page.do(HELPERS)

    def fill(self, call, paper=None):
        """Chooses the form of a call and fills it in by the call's own values, the key last, where it is said."""
        self.page.do(f"clerk.fill({json.dumps(call)}, {json.dumps(paper)})")

    def send(self):
        """Sends the form, says yes to what is asked, and gives what is said first."""
        return self.page.do(f"clerk.send({PATIENCE * 500})")

    def enter(self, call):
        self.fill(call)
        return self.send()

    def said(self):
        return self.page.do("document.querySelector('#said > div')?.textContent || ''")

    def text(self, name):
        return self.page.do(f"document.getElementById({json.dumps(name)}).textContent")

    def view(self, name, until="true"):
        self.page.do(f"document.querySelector('nav [data-view={name}]').click()")
        return self.page.until(until)

    def choose(self, name, value):
        self.page.do(f"clerk.set(document.getElementById({json.dumps(name)}), {json.dumps(value)})")


HELPERS = r"""
window.clerk = {
    money: cents => { const n = BigInt(cents), s = n < 0n ? -n : n; return (n < 0n ? '-' : '') + (s / 100n) + '.' + String(s % 100n).padStart(2, '0'); },
    set(input, value) {
        if (!input) throw new Error('no such input');
        if (input.disabled || input.closest('[hidden]')) throw new Error(input.name + ' can’t be filled in');
        if (input.type === 'checkbox') { if (input.checked !== value) input.click(); return; }
        input.value = String(value);
        if (input.value !== String(value)) throw new Error(input.name + ' has no choice ' + value);
        for (const kind of ['input', 'change']) input.dispatchEvent(new Event(kind, {bubbles: true}));
    },
    text(name, value) {
        return ['amount', 'by', 'proceeds', 'recorded'].includes(name) ? clerk.money(value) : value;
    },
    fill(call, paper) {
        const form = document.getElementById('form'), what = document.getElementById('call');
        clerk.set(what, call.call);
        // Without what a draft had.
        form.querySelector('.buttons button[type=button]').click();
        const first = ['on', 'what', 'year', 'levy_year', 'back', 'fund', 'dept'].filter(name => name in call);
        const rest = Object.keys(call).filter(name => !first.includes(name) && !['call', 'desk', 'key'].includes(name));
        for (const name of [...first, ...rest]) if (!Array.isArray(call[name])) clerk.set(form.elements.namedItem(name), clerk.text(name, call[name]));
        for (const name of rest) if (Array.isArray(call[name])) clerk.list(form, call, name);
        if (paper) clerk.set(form.elements.paper, paper);
        if (call.key) clerk.set(form.elements.key, call.key);
    },
    list(form, call, name) {
        if (name === 'principals') return clerk.set(form.elements.principals, call.principals.map(clerk.money).join('\n'));
        if (name === 'vouchers') {
            const more = [];
            for (const number of call.vouchers) {
                const tick = form.elements['voucher-' + number];
                if (tick && !tick.disabled) clerk.set(tick, true); else more.push(number);
            }
            return clerk.set(form.elements['vouchers-more'], more.join(', '));
        }
        if (name === 'lines' || name === 'estimates') {
            for (const each of call[name]) clerk.set(form.elements[name + '-' + (each.line ?? each.source)], clerk.money(each.amount));
            return;
        }
        const box = form.querySelector('fieldset.list');
        call.items.forEach((item, place) => {
            if (place) box.querySelector(':scope > button').click();
            const row = box.querySelectorAll('.item')[place], at = name => row.querySelector('[name=' + name + ']');
            for (const name of ['order', 'item', 'fund', 'dept', 'object', 'amount', 'recorded', 'final']) {
                if (name in item) clerk.set(at(name), clerk.text(name, item[name]));
            }
        });
    },
    confirm() {
        const prepared = document.getElementById('prepared');
        clerk.asked = prepared.textContent;
        for (const tick of prepared.querySelectorAll('input:not(:checked)')) tick.click();
        prepared.querySelector('.go').click();
    },
    async send(patience) {
        const said = document.getElementById('said'), before = said.firstChild, until = performance.now() + patience;
        const prepared = document.getElementById('prepared');
        clerk.asked = '';
        document.getElementById('form').requestSubmit();
        while (said.firstChild === before && performance.now() < until) {
            if (!prepared.hidden) clerk.confirm();
            await new Promise(go => setTimeout(go, 25));
        }
        if (said.firstChild === before) throw new Error('nothing was said');
        return said.firstChild.textContent;
    },
};
true
"""
