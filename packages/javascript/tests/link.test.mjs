/** The links of the page: each text is in the fragment that is made of it, and what is no such fragment holds none. */
import assert from "node:assert/strict";
import { test } from "node:test";
import { fragmentOf, heldBy, MOST_LINKED } from "../page/link.mjs";

test("a fragment holds its text and its options", async () => {
    for (const text of ["", "a", "# é 🍔\n\t& # % = +/\r\n", "\ufeffa\0b", "a".repeat(MOST_LINKED)]) {
        const fragment = await fragmentOf(text, "tables.definition-lists.norel");
        assert.match(fragment, /^#o=tables\.definition-lists\.norel&t=[\w-]+$/);
        assert.deepEqual(await heldBy(fragment), { options: "tables.definition-lists.norel", text });
    }
    assert.equal(await fragmentOf("a".repeat(MOST_LINKED + 1), ""), null);
});

test("other fragments hold no text, and broken ones throw", async () => {
    for (const fragment of ["", "#", "#view", "#o=&t=a b", "#t=AA", "#o=a/b&t=AA"]) assert.equal(await heldBy(fragment), null);
    const whole = await fragmentOf("a text that is packed", "");
    for (const broken of [whole.slice(0, -4), "#o=&t=AAAA", "#o=&t=A"]) await assert.rejects(heldBy(broken), undefined, broken);
});
