<?php
// Asks a proxy of which one server is gone, by PHP's Memcached, and prints what it was given as JSON: see lost.py.
//
// Usage: lost.php KIND PLAN

$plan = json_decode($argv[2], true);
$client = new Memcached();
$client->setOptions([Memcached::OPT_BINARY_PROTOCOL => false, Memcached::OPT_NOREPLY => $argv[1] === 'OPT_NOREPLY']);
$client->addServer($plan['host'], $plan['port']);

$counts = array_fill_keys($plan['counts'], 0);
$least = count($plan['living']);
$slowest = 0.0;

/** What a call gives, with the time that it took noted. */
function timed(callable $call)
{
    global $slowest;
    $begun = microtime(true);
    $given = $call();
    $slowest = max($slowest, microtime(true) - $begun);
    return $given;
}

/** What a get of a key gave: its value, another one, a miss, or an error. */
function said(Memcached $client, string $key): string
{
    $value = timed(fn () => $client->get($key));
    if ($client->getResultCode() === Memcached::RES_SUCCESS) {
        return $value === "v:$key" ? 'right' : 'wrong';
    }
    return $client->getResultCode() === Memcached::RES_NOTFOUND ? 'missed' : 'raised';
}

for ($number = 0; $number < $plan['rounds']; $number++) {
    $living = $plan['living'][$number % count($plan['living'])];
    $lost = $plan['lost'][$number % count($plan['lost'])];
    $counts['confirmed'] += (int) timed(fn () => $client->set($lost, "v:$lost"));
    $counts['living ' . said($client, $living)]++;
    $counts['lost ' . said($client, $lost)]++;
    if ($number % 10 === 0) {
        $values = timed(fn () => $client->getMulti([...$plan['living'], ...$plan['lost']]));
        $counts['pages raised'] += (int) ($values === false);
        $values = $values ?: [];
        $others = array_filter($values, fn ($value, $key) => $value !== "v:$key", ARRAY_FILTER_USE_BOTH);
        $counts['pages wrong'] += (int) ($others !== []);
        $least = min($least, count(array_intersect($plan['living'], array_keys($values))));
    }
}
echo json_encode($counts + ['least' => $least, 'slowest' => $slowest]), "\n";
