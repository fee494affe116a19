CREATE TABLE `orders` (
  `id` int NOT NULL AUTO_INCREMENT,
  `user_id` bigint NOT NULL,
  `number` varchar(32) NOT NULL,
  `state` enum('cart','placed','shipped') NOT NULL DEFAULT 'cart',
  `total` decimal(10,2) NOT NULL DEFAULT '0.00',
  `placed_on` date DEFAULT NULL,
  `created_at` datetime NOT NULL DEFAULT CURRENT_TIMESTAMP,
  `updated_at` timestamp NULL DEFAULT CURRENT_TIMESTAMP ON UPDATE CURRENT_TIMESTAMP,
  PRIMARY KEY (`id`),
  UNIQUE KEY `index_orders_on_number` (`number`),
  KEY `index_orders_on_user_id` (`user_id`),
  CONSTRAINT `fk_rails_f868b47f6a` FOREIGN KEY (`user_id`) REFERENCES `users` (`id`)
) ENGINE=InnoDB AUTO_INCREMENT=2147483640 DEFAULT CHARSET=utf8mb4 COLLATE=utf8mb4_0900_ai_ci;
INSERT INTO `orders` VALUES (1,10,'R001','placed',19.99,'2024-01-05','2024-01-05 10:00:00','2024-01-05 10:00:00'),(2147483639,11,'R002','cart',0.00,NULL,'2024-01-06 10:00:00','2024-01-06 10:00:00');
