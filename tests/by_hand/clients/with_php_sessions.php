<?php
// A session of PHP whose settings are those that Debian's packages have, but for where it is kept: in the binary protocol. It prints a
// line of JSON: whether the session was started, after how many seconds that was said, and the warnings.
//
// Usage: with_php_sessions.php PORT

ini_set('session.use_cookies', '0'); // There is no browser.
ini_set('session.cache_limiter', '');
ini_set('session.save_handler', 'memcached');
ini_set('session.save_path', "127.0.0.1:{$argv[1]}");

$warnings = [];
set_error_handler(function (int $level, string $warning) use (&$warnings): bool {
    $warnings[] = $warning;
    return true;
});
session_id('one');
$begun = microtime(true);
$started = session_start();
echo json_encode([ini_get('memcached.sess_binary_protocol'), $started, microtime(true) - $begun, $warnings]), "\n";
