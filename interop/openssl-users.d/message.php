<?php
// Opens by PHP's openssl_decrypt: 8 MB, equal, an empty message, and forged ones and one of another AAD, which are refused.

foreach (['aes-128-gcm' => 16, 'aes-256-gcm' => 32] as $name => $length) {
    $key = random_bytes($length);
    $nonce = random_bytes(12);
    foreach ([random_bytes(8 << 20), ''] as $text) {
        $sealed = openssl_encrypt($text, $name, $key, OPENSSL_RAW_DATA, $nonce, $tag, 'header');
        $opened = fn($tag, $aad) => openssl_decrypt($sealed, $name, $key, OPENSSL_RAW_DATA, $nonce, $tag, $aad);
        $forged = $tag ^ str_pad("\1", 16, "\0");
        if ($opened($tag, 'header') !== $text || $opened($forged, 'header') !== false || $opened($tag, 'other') !== false) {
            fwrite(STDERR, "$name: another text, or a forged one\n");
            exit(1);
        }
    }
}
