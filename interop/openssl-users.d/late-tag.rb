# Opens by Ruby's OpenSSL::Cipher with the tag set after the text: 8 MB, equal, an empty message, and forged ones and one of
# another AAD, which are refused. Both ends call `reset` after the AAD, which is an init of OpenSSL's with neither key nor nonce,
# and changes nothing.
require 'openssl'

AAD = 'header'

def sealed(name, key, nonce, text)
  cipher = OpenSSL::Cipher.new(name).encrypt
  cipher.key = key
  cipher.iv = nonce
  cipher.auth_data = AAD
  cipher.reset
  # Ruby takes no empty text.
  [(text.empty? ? '' : cipher.update(text)) + cipher.final, cipher.auth_tag]
end

def opened(name, key, nonce, sealed, tag, aad = AAD)
  cipher = OpenSSL::Cipher.new(name).decrypt
  cipher.key = key
  cipher.iv = nonce
  cipher.auth_data = aad
  cipher.reset
  text = sealed.empty? ? '' : cipher.update(sealed)
  cipher.auth_tag = tag
  text + cipher.final
end

def refused(*message)
  opened(*message)
rescue OpenSSL::Cipher::CipherError
  nil
else
  raise "#{message[0]}: a forged message was opened"
end

[['aes-128-gcm', 16], ['aes-256-gcm', 32]].each do |name, length|
  key = OpenSSL::Random.random_bytes(length)
  nonce = OpenSSL::Random.random_bytes(12)
  [OpenSSL::Random.random_bytes(8 << 20), ''].each do |text|
    message, tag = sealed(name, key, nonce, text)
    raise "#{name}: another text" unless opened(name, key, nonce, message, tag) == text
    refused(name, key, nonce, message, tag, 'other') unless text.empty?
    tag.setbyte(0, tag.getbyte(0) ^ 1)
    refused(name, key, nonce, message, tag)
  end
end
