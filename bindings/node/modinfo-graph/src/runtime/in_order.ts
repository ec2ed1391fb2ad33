/**
 * The results of tasks in the order of the tasks, of which some run at once.
 * @param most how many run, or wait for the result of an earlier one, at most
 * @param finish is called after the last result, or where no more are taken
 */
export async function* inOrder<Task, Result>(
  tasks: AsyncIterable<Task>, most: number, run: (task: Task) => Promise<Result> | Result, finish = () => {},
): AsyncGenerator<Result, void> {
  const iterator = tasks[Symbol.asyncIterator]();
  const next = () => kept(iterator.next().then((task) => ({ task })));
  const running: Promise<{ result: Result }>[] = [];
  let coming: ReturnType<typeof next> | undefined = next();
  try {
    while (coming !== undefined || running.length > 0) {
      const settled = await Promise.race([running[0] ?? [], running.length < most ? coming ?? [] : []].flat());
      if ("result" in settled) {
        yield settled.result;
        running.shift();
      } else if (settled.task.done) {
        coming = undefined;
      } else {
        coming = next();
        const { value } = settled.task;
        running.push(kept((async () => ({ result: await run(value) }))()));
      }
    }
  } finally {
    finish();
  }
}

/** Its error is thrown where it is waited for. */
function kept<T>(promise: Promise<T>): Promise<T> {
  promise.catch(() => {});
  return promise;
}
