<?php
// Stores through a proxy by PHP's Memcached and by PHP's own sessions, or asks again for what was stored, once one server has ended. It
// prints what it was given as JSON: see ended.py.
//
// Usage: ended.php store|ask PLAN

[, $what, $text] = $argv;
$plan = json_decode($text, true);
$settings = [
    'session.use_cookies' => '0',
    'session.cache_limiter' => '',
    'session.save_handler' => 'memcached',
    'session.save_path' => "127.0.0.1:{$plan['port']}",
    'memcached.sess_binary_protocol' => '0',
];
foreach ($settings as $name => $value) {
    ini_set($name, $value);
}
$warnings = 0;
set_error_handler(function () use (&$warnings): bool {
    $warnings++;
    return true;
});

/** Whether a session has begun, what it has, and whether it is written with one value more. */
function session(string $id): array
{
    global $warnings;
    $_SESSION = [];
    session_id($id);
    if (!session_start()) {
        return [false, null, false];
    }
    $has = $_SESSION;
    $_SESSION['stored'] = $id;
    $warnings = 0;
    session_write_close();
    return [true, $has, $warnings === 0];
}

/** What a call gave, and what the client says of it. */
function with_code(Memcached $client, $got): array
{
    return [$got, $client->getResultMessage()];
}

$given = ['sessions' => []];
foreach ($plan['sessions'] as $locking => $ids) {
    ini_set('memcached.sess_locking', $locking);
    foreach ($ids as $id) {
        $given['sessions'][$id] = session($id);
    }
}
$client = new Memcached();
$client->addServer('127.0.0.1', $plan['port']);
['living' => $living, 'lost' => $lost] = $plan;
if ($what === 'store') {
    $given['stored'] = [$client->set($living, 7), $client->set($lost, 7)];
} else {
    $given['calls'] = [
        'get, living' => with_code($client, $client->get($living)),
        'get, lost' => with_code($client, $client->get($lost)),
        'getMulti, lost' => with_code($client, $client->getMulti([$lost])),
        'getMulti, both' => with_code($client, $client->getMulti([$living, $lost])),
        'set, lost' => with_code($client, $client->set($lost, 8)),
        'increment, lost' => with_code($client, $client->increment($lost)),
        'delete, lost' => with_code($client, $client->delete($lost)),
        'get, living, after that' => with_code($client, $client->get($living)),
    ];
}
echo json_encode($given), "\n";
