<?php
// The calls of with_php.py: makes each call of PHP's Memcached in the text protocol, and prints a line of JSON for each:
// its name, what it gave and what it is to give (as PHP writes values), and a piece of docs/PROTOCOL.md or nothing.
//
// Usage: with_php.php PORT PORT

const LARGE_VALUE = '| A value has at most 1,048,576 bytes';
const NO_BINARY = 'no binary protocol';
const NO_STATS = '| `stats`, `verbosity`,';
const OLDER_STAYS = '| A refused store leaves the older item';
const PADDING = '| `incr` and `decr` store a number with no padding';
const VERSION = '| `version` is always';

/** The settings of a session: the text protocol, and the defaults of its locks. */
const SESSION = [
    'session.use_cookies' => '0',
    'session.cache_limiter' => '',
    'session.save_handler' => 'memcached',
    'session.gc_maxlifetime' => '1440',
    'memcached.sess_binary_protocol' => '0',
    'memcached.sess_prefix' => 'memc.sess.key.',
    'memcached.sess_locking' => '1',
    'memcached.sess_lock_retries' => '5',
    'memcached.sess_lock_wait_min' => '150',
    'memcached.sess_lock_wait_max' => '150',
    'memcached.sess_lock_expire' => '0',
];

function row(string $name, $got, $wanted, string $differs = ''): void
{
    $row = [$name, var_export($got, true), var_export($wanted, true), $differs];
    echo json_encode($row, JSON_INVALID_UTF8_SUBSTITUTE), "\n";
}

/** A client of these ports that says what it was answered, and changes no value on its way. */
function client(array $ports, array $options = []): Memcached
{
    $client = new Memcached();
    $client->setOptions($options + [
        Memcached::OPT_BINARY_PROTOCOL => false,
        Memcached::OPT_COMPRESSION => false,
        Memcached::OPT_TCP_NODELAY => true,
    ]);
    foreach ($ports as $port) {
        $client->addServer('127.0.0.1', $port);
    }
    return $client;
}

/** What a call gave, and what the client says of it. */
function with_code(Memcached $client, $got): array
{
    return [$got, $client->getResultMessage()];
}

function stores(Memcached $client, string $kind): void
{
    row("$kind: set", with_code($client, $client->set('a', 'x')), [true, 'SUCCESS']);
    row("$kind: get", with_code($client, $client->get('a')), ['x', 'SUCCESS']);
    row("$kind: get of a key that is not held", with_code($client, $client->get('none')), [false, 'NOT FOUND']);
    row("$kind: set of line ends", $client->set('a', "\r\nEND\r\n\0\xff"), true);
    row("$kind: get of line ends", $client->get('a') === "\r\nEND\r\n\0\xff", true);
    row("$kind: set and get of nothing", [$client->set('a', ''), $client->get('a')], [true, '']);
    row("$kind: add of a held key", with_code($client, $client->add('a', 'y')), [false, 'NOT STORED']);
    row("$kind: add", with_code($client, $client->add('b', 'y')), [true, 'SUCCESS']);
    row("$kind: replace", with_code($client, $client->replace('b', 'm')), [true, 'SUCCESS']);
    row("$kind: replace of a key that is not held", with_code($client, $client->replace('none', 'z')), [false, 'NOT STORED']);
    row("$kind: append", with_code($client, $client->append('b', 'n')), [true, 'SUCCESS']);
    row("$kind: prepend", with_code($client, $client->prepend('b', 'l')), [true, 'SUCCESS']);
    row("$kind: append to a key that is not held", with_code($client, $client->append('none', 'n')), [false, 'NOT STORED']);
    row("$kind: prepend to a key that is not held", with_code($client, $client->prepend('none', 'n')), [false, 'NOT STORED']);
    row("$kind: get of what was put together", $client->get('b'), 'lmn');
    row("$kind: delete", with_code($client, $client->delete('b')), [true, 'SUCCESS']);
    row("$kind: delete of a key that is not held", with_code($client, $client->delete('b')), [false, 'NOT FOUND']);
    row("$kind: delete with the time 0", $client->set('b', 'x') && $client->delete('b', 0), true);
}

function expires(Memcached $client, string $kind): void
{
    row("$kind: touch", with_code($client, $client->set('t', 'x') && $client->touch('t', 3600)), [true, 'SUCCESS']);
    row("$kind: touch of a key that is not held", with_code($client, $client->touch('none', 60)), [false, 'NOT FOUND']);
    row("$kind: set for a second", $client->set('e', 'x', 1), true);
    row("$kind: set until a moment", $client->set('f', 'x', time() + 3600), true);
    row("$kind: set, dead at once", $client->set('g', 'x', -1), true);
    row("$kind: touchByKey for a second", $client->set('h', 'x') && $client->touchByKey('h', 'h', 1), true);
    usleep(2100000);
    row("$kind: getMulti 2 seconds later", $client->getMulti(['e', 'f', 'g', 'h', 't']), ['f' => 'x', 't' => 'x']);
}

function counts(Memcached $client, string $kind): void
{
    row("$kind: increment of a key that is not held", with_code($client, $client->increment('n')), [false, 'NOT FOUND']);
    row("$kind: set of a number", $client->set('n', 10), true);
    row("$kind: increment", with_code($client, $client->increment('n', 5)), [15, 'SUCCESS']);
    row("$kind: decrement", with_code($client, $client->decrement('n', 6)), [9, 'SUCCESS']);
    row("$kind: get of a number that got shorter", $client->get('n', null, Memcached::GET_EXTENDED)['value'], 9);
    row("$kind: decrement below 0", $client->decrement('n', 100), 0);
    $with_default = @$client->increment('m', 1, 7);
    row("$kind: increment with a default, which PHP has in the binary protocol alone", $with_default, false);
    row("$kind: decrement with a default, likewise", @$client->decrement('m', 1, 7), false);
    row("$kind: incrementByKey", $client->set('n', 4) && $client->incrementByKey('n', 'n', 3), true);
    row("$kind: decrementByKey", $client->decrementByKey('n', 'n', 2), 5);
    row("$kind: increment of a text", with_code($client, $client->set('n', 'five') && $client->increment('n')), [false, 'CLIENT ERROR']);
    $padded = $client->set('w', '10') && $client->decrement('w') ? $client->get('w') : null;
    row("$kind: get of a text that was counted down", $padded, '9', PADDING);
}

function compares(Memcached $client, string $kind): void
{
    row("$kind: set", $client->set('c', 'x'), true);
    $shown = $client->get('c', null, Memcached::GET_EXTENDED);
    row("$kind: get with its number", [$shown['value'], $shown['flags'], is_int($shown['cas'])], ['x', 0, true]);
    row("$kind: cas", with_code($client, $client->cas($shown['cas'], 'c', 'y')), [true, 'SUCCESS']);
    $data_exists = 'CONNECTION DATA EXISTS';
    row("$kind: cas with an older number", with_code($client, $client->cas($shown['cas'], 'c', 'z')), [false, $data_exists]);
    row("$kind: cas of a key that is not held", with_code($client, $client->cas(1, 'none', 'z')), [false, 'NOT FOUND']);
    row("$kind: casByKey", $client->casByKey($client->getByKey('c', 'c', null, Memcached::GET_EXTENDED)['cas'], 'c', 'c', 'w'), true);
    row("$kind: get of what cas stored", $client->get('c'), 'w');
    $made = $client->get('made', function ($client, $key, &$value) {
        $value = "made of $key";
        return true;
    });
    row("$kind: get that fills a miss", [$made, $client->get('made')], ['made of made', 'made of made']);
}

function many(Memcached $client, string $kind): void
{
    $values = [];
    for ($number = 0; $number < 100; $number++) {
        $values["m$number"] = "value $number";
    }
    row("$kind: setMulti", with_code($client, $client->setMulti($values)), [true, 'SUCCESS']);
    $shown = $client->getMulti(array_keys($values));
    ksort($shown);
    ksort($values);
    row("$kind: getMulti", $shown === $values, true);
    $ordered = $client->getMulti(['m2', 'none', 'm1'], Memcached::GET_PRESERVE_ORDER);
    row("$kind: getMulti in order", $ordered, ['m2' => 'value 2', 'none' => null, 'm1' => 'value 1']);
    $deleted = $client->deleteMulti(['m1', 'none', 'm2']);
    row("$kind: deleteMulti", $deleted, ['m1' => true, 'none' => Memcached::RES_NOTFOUND, 'm2' => true]);
    row("$kind: getMulti of what was deleted", $client->getMulti(['m1', 'm2', 'm3']), ['m3' => 'value 3']);
    row("$kind: getDelayed", $client->getDelayed(['m3'], false), true);
    row("$kind: fetch", [$client->fetch(), $client->fetch()], [['key' => 'm3', 'value' => 'value 3'], false]);
    row("$kind: getDelayed with numbers", $client->getDelayed(['m4', 'none', 'm5'], true), true);
    $fetched = array_column($client->fetchAll(), 'value', 'key');
    ksort($fetched);
    row("$kind: fetchAll", $fetched, ['m4' => 'value 4', 'm5' => 'value 5']);
}

/** The same by a key that says which server. */
function by_key(Memcached $client, string $kind): void
{
    row("$kind: setByKey", $client->setByKey('s', 'a', 'x'), true);
    row("$kind: getByKey", $client->getByKey('s', 'a'), 'x');
    row("$kind: addByKey", [$client->addByKey('s', 'a', 'y'), $client->addByKey('s', 'k', 'y')], [false, true]);
    row("$kind: replaceByKey", $client->replaceByKey('s', 'k', 'm'), true);
    row("$kind: appendByKey", $client->appendByKey('s', 'k', 'n'), true);
    row("$kind: prependByKey", $client->prependByKey('s', 'k', 'l'), true);
    row("$kind: setMultiByKey", $client->setMultiByKey('s', ['i' => '1', 'j' => '2']), true);
    row("$kind: getMultiByKey", $client->getMultiByKey('s', ['i', 'k']), ['i' => '1', 'k' => 'lmn']);
    row("$kind: getDelayedByKey", $client->getDelayedByKey('s', ['j']), true);
    row("$kind: fetchAll", $client->fetchAll(), [['key' => 'j', 'value' => '2']]);
    row("$kind: deleteMultiByKey", $client->deleteMultiByKey('s', ['i', 'j']), ['i' => true, 'j' => true]);
    row("$kind: deleteByKey", [$client->deleteByKey('s', 'k'), $client->deleteByKey('s', 'k')], [true, false]);
}

function values_of_php(int $port): void
{
    $client = client([$port], [Memcached::OPT_COMPRESSION => true, Memcached::OPT_PREFIX_KEY => 'pre:']);
    $long = str_repeat('0123456789', 5000);
    foreach ([true, 7, 2.5, 'é', [1, 'two' => [null]], null, $long] as $value) {
        $name = strlen(serialize($value)) > 100 ? 'a long text, compressed' : json_encode($value);
        row("values: set and get of $name", [$client->set('v', $value), $client->get('v') === $value], [true, true]);
    }
    row('values: the prefix is on the key', client([$port])->get('pre:v') !== false, true);
}

function limits(Memcached $client): void
{
    $key = str_repeat('k', 250);
    $megabyte = str_repeat('v', 1048576);
    row('limits: set and get of a key of 250 bytes', [$client->set($key, 'x'), $client->get($key)], [true, 'x']);
    row('limits: set of a key with a control byte, which PHP refuses', $client->set("a\x01b", 'x'), false);
    row('limits: set of 1,048,576 bytes', $client->set('a', $megabyte), true, LARGE_VALUE);
    row('limits: get of 1,048,576 bytes', $client->get('a') === $megabyte, true, LARGE_VALUE);
    row('limits: set of a small value', $client->set('a', 'small'), true);
    row('limits: set of 1,048,577 bytes', with_code($client, $client->set('a', $megabyte . 'v')), [false, 'ITEM TOO BIG']);
    row('limits: get of the older value', $client->get('a'), 'small', OLDER_STAYS);
}

function tells(Memcached $client, int $port): void
{
    row('getVersion', $client->getVersion(), ["127.0.0.1:$port" => '1.6.0'], VERSION);
    row('getStats', $client->getStats(), false, NO_STATS);
    row('getStats of settings', $client->getStats('settings'), false, NO_STATS);
    row('getAllKeys', $client->getAllKeys(), false, NO_STATS);
    row('set and get after that', [$client->set('a', 'x'), $client->get('a')], [true, 'x']);
    row('quit, and get, which connects again', [$client->quit(), $client->get('a')], [true, 'x']);
    $kept = client([$port], [Memcached::OPT_BUFFER_WRITES => true]);
    row('set that is kept back', with_code($kept, $kept->set('k', 'x')), [true, 'ACTION QUEUED']);
    row('flushBuffers', [$kept->flushBuffers(), $kept->get('k')], [true, 'x']);
    $silent = client([$port], [Memcached::OPT_NOREPLY => true]);
    row('noreply: set, append, get', [$silent->set('u', 'x'), $silent->append('u', 'y'), $silent->get('u')], [true, true, 'xy']);
    row('noreply: delete, get', [$silent->delete('u'), $silent->get('u')], [true, false]);
    row('flush', [$client->flush(), $client->get('a')], [true, false]);
    row('flush in 3 seconds', [$client->set('a', 'x'), $client->flush(3), $client->get('a')], [true, true, 'x']);
    // A second more, since memcached loses what is stored in the second of its flush, by a clock that may be late.
    usleep(4100000);
    row('get 4 seconds later', $client->get('a'), false);
}

/** Starts a session of PHP's own, and says whether it has begun, and after how many milliseconds that was said. */
function started(string $id, array $settings = []): array
{
    foreach ($settings + SESSION as $name => $value) {
        ini_set($name, $value);
    }
    session_id($id);
    $begun = microtime(true);
    $is_started = @session_start();
    return [$is_started, (int) ((microtime(true) - $begun) * 1000)];
}

/** The same, with the least time in the place of one that is up to half a second longer. */
function about(array $started, int $least): array
{
    [$is_started, $took] = $started;
    return [$is_started, $took >= $least && $took < $least + 500 ? $least : $took];
}

/** PHP's own sessions, kept in the server: they are locked by `add`. */
function sessions(int $port): void
{
    ini_set('session.save_path', "127.0.0.1:$port");
    $is_started = started('one')[0];
    $_SESSION['seen'] = ['x' => 1];
    row('session: stored', [$is_started, session_write_close()], [true, true]);
    $_SESSION = [];
    row('session: started again', started('one')[0], true);
    row('session: read again', $_SESSION, ['seen' => ['x' => 1]]);
    $client = client([$port]);
    row('session: its key is locked', $client->get('memc.sess.key.lock.one') !== false, true);
    row('session: its id is another', session_regenerate_id(true), true);
    $other = session_id();
    row('session: the key of the older id is gone', $client->get('memc.sess.key.one'), false);
    row('session: its lock is gone', $client->get('memc.sess.key.lock.one'), false);
    row('session: stored under the other id', session_write_close(), true);
    row('session: read by the other id', [started($other)[0], $_SESSION], [true, ['seen' => ['x' => 1]]]);
    row('session: ended', session_destroy(), true);
    row('session: its key is gone', $client->get("memc.sess.key.$other"), false);
    row('session: its lock is gone too', $client->get("memc.sess.key.lock.$other"), false);
    started('short', ['session.gc_maxlifetime' => '1']);
    $_SESSION['seen'] = 1;
    row('session.gc_maxlifetime: stored for a second', session_write_close(), true);
    usleep(2100000);
    row('session.gc_maxlifetime: 2 seconds later', [started('short')[0], $_SESSION, session_write_close()], [true, [], true]);
    started('mine', ['memcached.sess_prefix' => 'site.']);
    row('memcached.sess_prefix: its lock', $client->get('site.lock.mine') !== false, true);
    row('memcached.sess_prefix: stored', [session_write_close(), $client->get('site.mine') !== false], [true, true]);
}

/** The settings of their locks. Another's lock is an item that the client stores, for a second or for good. */
function locks(int $port): void
{
    $client = client([$port]);
    $lock = 'memc.sess.key.lock.two';
    $client->set($lock, '1');
    row('a locked session, by default: five waits of 150 ms', about(started('two'), 750), [false, 750]);
    $shorter = ['memcached.sess_lock_wait_min' => '50', 'memcached.sess_lock_wait_max' => '100'];
    row('sess_lock_wait_min 50, _max 100: a wait of 50 ms and four of 100', about(started('two', $shorter), 450), [false, 450]);
    row('sess_lock_retries 2: two waits', about(started('two', ['memcached.sess_lock_retries' => '2']), 300), [false, 300]);
    row('sess_lock_retries 0: no wait', about(started('two', ['memcached.sess_lock_retries' => '0']), 0), [false, 0]);
    row('the lock of the other is there', $client->get($lock), '1');
    $client->set($lock, '1', 1);
    [$is_started, $took] = started('two', ['memcached.sess_lock_retries' => '30']);
    row('sess_lock_retries 30: started once the other lock is gone', [$is_started, $took < 3000], [true, true]);
    row('it is stored, and its lock is gone', [session_write_close(), $client->get($lock)], [true, false]);
    $client->set($lock, '1');
    row('sess_locking 0: started at once', about(started('two', ['memcached.sess_locking' => '0']), 0), [true, 0]);
    row('sess_locking 0: stored, and the lock of the other is there', [session_write_close(), $client->get($lock)], [true, '1']);
    $client->delete($lock);
    started('two', ['memcached.sess_lock_expire' => '2']);
    row('sess_lock_expire 2: locked', $client->get($lock) !== false, true);
    usleep(3100000);
    row('sess_lock_expire 2: 3 seconds later', $client->get($lock), false);
    row('sess_lock_expire 2: stored', session_write_close(), true);
}

function protocols(int $port): void
{
    row('the protocol is text by default', (new Memcached())->getOption(Memcached::OPT_BINARY_PROTOCOL), 0);
    $binary = client([$port], [Memcached::OPT_BINARY_PROTOCOL => true, Memcached::OPT_POLL_TIMEOUT => 300]);
    row('OPT_BINARY_PROTOCOL: set', $binary->set('a', 'x'), false, NO_BINARY);
}

ob_start();
[, $first, $second] = array_map('intval', $argv);
foreach (['one server' => [$first], 'two servers' => [$first, $second]] as $kind => $ports) {
    $client = client($ports, [Memcached::OPT_LIBKETAMA_COMPATIBLE => count($ports) > 1]);
    row("$kind: flush", $client->flush(), true);
    stores($client, $kind);
    counts($client, $kind);
    compares($client, $kind);
    many($client, $kind);
    by_key($client, $kind);
}
$client = client([$first]);
expires($client, 'one server');
values_of_php($first);
limits(client([$first]));
tells($client, $first);
sessions($first);
locks($first);
protocols($first);
