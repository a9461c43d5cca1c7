/** @file The posts, which the page has as text: each line becomes a link to its request, and its code gets its colour. */

/** A run with more posts keeps them as text alone. */
const MOST_LINKED = 2000;

function linkPosts({ requests }) {
  const lines = byId("post-lines");
  if (requests.length > MOST_LINKED) return;
  lines.style.contentVisibility = "visible";
  const parts = lines.textContent.split("\n").map((line) => {
    const [, head, task, unit, number, code] = /^(post (\d+) (\d+) (\d+) )(..)/.exec(line) ?? [];
    if (!code) return line;
    return el("a", { href: `#q${task}-${unit}-${number}` }, head, el("b", { class: `t${code}` }, code),
      line.slice(head.length + 2));
  });
  lines.replaceChildren(...parts.flatMap((line, place) => (place ? ["\n", line] : [line])));
}
