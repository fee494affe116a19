CREATE TABLE `payments` (
  `id` int(10) unsigned NOT NULL AUTO_INCREMENT,
  `order_id` int(10) unsigned NOT NULL,
  `amount` decimal(12,2) NOT NULL,
  `currency` char(3) NOT NULL DEFAULT 'EUR',
  `method` varchar(32) CHARACTER SET latin1 NOT NULL,
  `memo` mediumtext,
  `paid` bit(1) NOT NULL DEFAULT b'0',
  `paid_at` datetime DEFAULT NULL,
  PRIMARY KEY (`id`),
  KEY `order_id` (`order_id`),
  KEY `memo` (`memo`(20))
) ENGINE=InnoDB DEFAULT CHARSET=utf8;
INSERT INTO `payments` VALUES (1,1,19.99,'EUR','card','ok',_binary '',NULL),(2,2,5.00,'USD','paypal',NULL,_binary '\0','2024-01-01 00:00:00');
