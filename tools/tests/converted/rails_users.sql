CREATE TABLE `users` (
  `id` bigint NOT NULL AUTO_INCREMENT,
  `email` varchar(255) NOT NULL DEFAULT '',
  `encrypted_password` varchar(255) NOT NULL DEFAULT '',
  `reset_password_token` varchar(255) DEFAULT NULL,
  `reset_password_sent_at` datetime(6) DEFAULT NULL,
  `sign_in_count` int NOT NULL DEFAULT '0',
  `current_sign_in_at` datetime(6) DEFAULT NULL,
  `admin` tinyint(1) DEFAULT '0',
  `settings` json DEFAULT NULL,
  `created_at` datetime(6) NOT NULL,
  `updated_at` datetime(6) NOT NULL,
  PRIMARY KEY (`id`),
  UNIQUE KEY `index_users_on_email` (`email`),
  UNIQUE KEY `index_users_on_reset_password_token` (`reset_password_token`)
) ENGINE=InnoDB AUTO_INCREMENT=12 DEFAULT CHARSET=utf8mb4 COLLATE=utf8mb4_0900_ai_ci;
INSERT INTO `users` VALUES (10,'ann@example.com','$2a$12$x',NULL,NULL,3,'2024-01-05 10:00:00.123456',1,'{\"lang\": \"de\"}','2023-12-01 00:00:00.000000','2024-01-05 10:00:00.123456'),(11,'bob@example.com','$2a$12$y','tok1','2024-01-04 09:00:00.000000',0,NULL,0,NULL,'2023-12-02 00:00:00.000000','2023-12-02 00:00:00.000000');
