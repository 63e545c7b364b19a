// The open plan with what can be undone. Every change gives a new one; rows that did not change are shared.

const MOST_STEPS = 500;

// `bytes` are those of the file that has the saved rows; `fromWords` tells rows that stand for a file of words, in its order. A plan that
// was open before and has changes that are not saved is kept in `before`, and undoing brings it back.
export function openPlan(name, rows, { kind = 'plan', exam = false, separator = ';', bytes, fromWords = false, before = null } = {}) {
  return { name, kind, exam, separator, bytes, fromWords, rows, saved: rows, past: [], future: [], before, after: null };
}

export const isSaved = (plan) => plan.rows === plan.saved;

export function changed(plan, rows) {
  return { ...plan, rows, past: [...plan.past, plan.rows].slice(-MOST_STEPS), future: [] };
}

// The rows with another text in a cell; cells in between are made.
export function withCell(rows, row, column, text) {
  const cells = [...(rows[row] ?? [])];
  while (cells.length <= column) cells.push('');
  // A character that no text file has could be pasted, and the file not be opened again.
  cells[column] = text.replace(/[\u0000-\u0008\u000b\u000c\u000e-\u001f\u007f]/g, ' ');
  while (cells.length > 1 && cells[cells.length - 1] === '') cells.pop();
  const all = [...rows];
  while (all.length < row) all.push(['']);
  all[row] = cells;
  return all;
}

export const withRowBelow = (rows, row) => [...rows.slice(0, row + 1), [''], ...rows.slice(row + 1)];
export const withoutRow = (rows, row) => (rows.length <= 1 ? [['']] : [...rows.slice(0, row), ...rows.slice(row + 1)]);

export const canUndo = (plan) => plan.past.length > 0 || plan.before !== null;
export const canRedo = (plan) => plan.future.length > 0 || plan.after !== null;

export function undone(plan) {
  if (plan.past.length === 0) return plan.before ? { ...plan.before, after: plan } : plan;
  return { ...plan, rows: plan.past[plan.past.length - 1], past: plan.past.slice(0, -1), future: [plan.rows, ...plan.future] };
}

export function redone(plan) {
  if (plan.future.length === 0) return plan.after ?? plan;
  return { ...plan, rows: plan.future[0], past: [...plan.past, plan.rows], future: plan.future.slice(1) };
}
